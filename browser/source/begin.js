"use strict";

// The worker that compares stamps runs this same script. There it has no document.

const IS_WORKER = typeof document === "undefined", SOURCE = IS_WORKER ? "" : document.currentScript.textContent;
