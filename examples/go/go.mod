module example.com/guard

go 1.19

require huranvi.example/libmvt v0.0.0

replace huranvi.example/libmvt => ../../library/go
