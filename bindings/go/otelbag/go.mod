module terncommode/otelbag

go 1.19

require (
	go.opentelemetry.io/otel v1.1.0
	terncommode v0.0.0
)

replace terncommode => ../
