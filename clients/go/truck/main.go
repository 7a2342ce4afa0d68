// The truck of the shop: see clients/shop/shop.py.
//
// Usage: truck FOLDER [fixed]
package main

import (
	"fmt"
	"log"
	"os"
	"path/filepath"
	"strconv"
	"time"

	"hometturi.example/itctrace"
)

// must gives the value; the program ends if there is none.
func must[T any](value T, err error) T {
	if err != nil {
		log.Fatal(err)
	}
	return value
}

// waitFor comes after what the sales did, by the message in its file.
func waitFor(done string) {
	for {
		if message, err := os.ReadFile(done); err == nil {
			itctrace.Incoming(string(message))
			return
		}
		time.Sleep(10 * time.Millisecond)
	}
}

func main() {
	defer itctrace.Begin().End()
	folder := os.Args[1]
	stock := filepath.Join(folder, "stock")
	if len(os.Args) > 2 {
		waitFor(filepath.Join(folder, "sales.done"))
	}
	itctrace.TouchAcross("stock file", false) // race: shop
	left := must(strconv.Atoi(string(must(os.ReadFile(stock)))))
	itctrace.TouchAcross("stock file", true) // race: shop
	written := filepath.Join(folder, "truck.stock")
	if err := os.WriteFile(written, []byte(strconv.Itoa(left+2)), 0o666); err != nil {
		log.Fatal(err)
	}
	if err := os.Rename(written, stock); err != nil {
		log.Fatal(err)
	}
	fmt.Println("the truck has brought back 2")
}
