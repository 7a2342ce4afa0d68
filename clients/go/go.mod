module hometturi.example/itctrace

go 1.19
