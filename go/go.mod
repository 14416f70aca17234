module zaptirony.example/sdtool

go 1.19
