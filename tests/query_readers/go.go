// Each line of stdin is a query in hexadecimal; its answer has the names and the texts that Go reads.
package main

import (
	"bufio"
	"encoding/hex"
	"net/url"
	"os"
	"strings"
)

func main() {
	lines, out := bufio.NewScanner(os.Stdin), bufio.NewWriter(os.Stdout)
	defer out.Flush()
	for lines.Scan() {
		query, _ := hex.DecodeString(lines.Text())
		read, _ := url.ParseQuery(string(query))
		var pairs []string
		for name, values := range read {
			for _, value := range values {
				pairs = append(pairs, hex.EncodeToString([]byte(name))+"="+hex.EncodeToString([]byte(value)))
			}
		}
		out.WriteString(strings.Join(pairs, " ") + "\n")
	}
}
