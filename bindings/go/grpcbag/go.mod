module terncommode/grpcbag

go 1.19

require (
	google.golang.org/grpc v1.33.3
	terncommode v0.0.0
)

replace terncommode => ../
