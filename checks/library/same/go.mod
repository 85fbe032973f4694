module same

go 1.19

require likes v0.0.0

replace likes => ../../../bindings/go
