// A service behind net/http that checks each $filter: `go run . SCHEMA TYPE PORT`. It answers a request by the query
// that reaches its handler, and by the paths that the filter reads.
package main

import (
	"fmt"
	"log"
	"net"
	"net/http"
	"os"
	"strings"

	"example.org/odfilter"
)

const mostNodes = 100

func main() {
	document, err := os.ReadFile(os.Args[1])
	if err != nil {
		log.Fatal(err)
	}
	schema, err := odfilter.ReadSchema(document)
	if err != nil {
		log.Fatal(err)
	}
	entities, err := schema.Type(os.Args[2])
	if err != nil {
		log.Fatal(err)
	}
	listener, err := net.Listen("tcp", "127.0.0.1:"+os.Args[3])
	if err != nil {
		log.Fatal(err)
	}
	fmt.Printf("http://%s\n", listener.Addr())
	log.Fatal(http.Serve(listener, checked(entities, mostNodes, http.HandlerFunc(answer))))
}

func answer(w http.ResponseWriter, r *http.Request) {
	paths := []string{}
	if filter := filterOf(r); filter != nil {
		paths, _ = filter.PropertyPaths()
	}
	fmt.Fprintf(w, "%s\n%s\n", r.URL.RawQuery, strings.Join(paths, " "))
}
