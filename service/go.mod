module mlscheckd

go 1.19

require (
	github.com/getkin/kin-openapi v0.110.0
	github.com/gorilla/mux v1.8.0
	github.com/jackc/pgx/v4 v4.15.0
	github.com/mattn/go-sqlite3 v1.14.16
	github.com/prometheus/client_golang v1.14.0
	golang.org/x/net v0.7.0
	mlscheck v0.0.0
)

replace mlscheck => ../bindings/go
