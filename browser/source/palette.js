// Colours and sizes of the picture

// The colours of processes are of Okabe and Ito, and of Tol, darker or lighter as the paper wants it: people who do not see all colours can
// tell them apart, and none of them is the red of races.
const LIGHT = { standings: ["#1f2933", "#004488", "#d55e00", "#cc79a7", "#000000"], paper: "#ffffff", veil: "rgb(255 255 255 / 86%)",
  lane: "#9aa5b1", edge: "#52606d", pale: "#c3cbd3", name: "#102a43", message: "#243b53", race: "#b00020", onConcurrent: "#000000",
  chain: "#6a3d9a", ruler: "#f1f4f7", fold: "#e4e7eb", bars: "#66727f",
  processes: ["#0072b2", "#b36b00", "#00795a", "#8f4a7c", "#332288", "#4d4700"] };
const DARK = { standings: ["#e4e7eb", "#6fb1ff", "#ff9f4a", "#f0a6cf", "#ffffff"], paper: "#12181f", veil: "rgb(18 24 31 / 86%)",
  lane: "#66727f", edge: "#a7b3c0", pale: "#3d4956", name: "#d9e8f6", message: "#c3d4e6", race: "#ff8a80", onConcurrent: "#12181f",
  chain: "#c9a6ff", ruler: "#1c242d", fold: "#2b3642", bars: "#a7b3c0",
  processes: ["#56b4e9", "#e69f00", "#2fc49b", "#dd9ac6", "#9ad4f5", "#f0e442"] };
const darkness = IS_WORKER ? null : window.matchMedia("(prefers-color-scheme: dark)");
let palette = LIGHT, COLOURS = LIGHT.standings;

function usePalette() {
  palette = darkness.matches ? DARK : LIGHT;
  COLOURS = palette.standings;
}

const colourOfProcess = (place) => palette.processes[place % palette.processes.length];

const FAMILY = 'ui-monospace, "DejaVu Sans Mono", Menlo, monospace', FONT_SIZE = 12, FONT = `${FONT_SIZE}px ${FAMILY}`;
const MOST_MARKS = 600, MOST_SMALL = 6000, MOST_EDGES = 500, MOST_PASSING = 100, FEW_EDGES = 90;
const MOST_NUMBERS = 260, MOST_LABELS = 400, MOST_REACHED = 120;
const MOST_LINES = 12;
const GREATEST_SCALE = 110, LANE = 64, LEAST_LANE = 22, GREATEST_LANE = 96, ROOM = 46, MARGIN = 8;
const NEAR_SCALE = 44, READ_SCALE = 78, RULER = 20, DENSE_LANE = 3, NEAR_LANE = 12;
