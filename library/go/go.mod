module huranvi.example/libmvt

go 1.19
