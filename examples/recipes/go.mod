module recipes

go 1.19

require terncommode v0.0.0

replace terncommode => ../../bindings/go
