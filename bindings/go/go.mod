module terncommode

go 1.19
