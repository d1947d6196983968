module rim

go 1.19
