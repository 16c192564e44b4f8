module mercator.example/frontier

go 1.19
