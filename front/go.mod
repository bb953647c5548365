// The gate doesn't build by this file, as it has no network: `front/build` takes the packages
// of Debian 12, which are of these versions. They are the newest that the front is known to
// work with. Who can fetch newer ones of x/net (from 0.23.0 on it has cures of its own for
// rapid resets and floods of CONTINUATION) and a newer Go does better: `go mod tidy` writes the
// sums of what it finds.
module tailnetd-front

go 1.19

require (
	github.com/flynn/noise v1.0.0
	github.com/klauspost/compress v1.15.12
	golang.org/x/crypto v0.4.0
	golang.org/x/net v0.7.0
)

require (
	golang.org/x/sys v0.5.0 // indirect
	golang.org/x/text v0.7.0 // indirect
)
