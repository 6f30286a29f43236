package terncommode_test

import (
	"context"
	"fmt"
	"io"
	"net/http"
	"net/http/httptest"
	"strings"
	"sync"

	"terncommode"
)

func Example() {
	bag := terncommode.MustBag(table) // what `baggage table examples/checkout.bdl Checkout` prints
	c, err := bag.Update(nil, terncommode.Set("id", "4711"), terncommode.Set("tags", terncommode.Quote("spring")))
	if err != nil {
		panic(err)
	}
	for _, each := range []terncommode.Context{c, c.Cut(12)} {
		text, exact, err := bag.Text(each, "tags")
		fmt.Println(text, exact, err)
	}
	// Output:
	// {"spring"} true <nil>
	// {} false <nil>
}

// A service with two others below it, which it asks beside one another.
func ExampleHandler() {
	bag := terncommode.MustBag(table)
	client := &http.Client{Transport: terncommode.Transport{Hosts: terncommode.Hosts("127.0.0.1")}}
	service := func(name string, below ...*httptest.Server) *httptest.Server {
		return httptest.NewServer(terncommode.Handler(http.HandlerFunc(func(w http.ResponseWriter, r *http.Request) {
			var group sync.WaitGroup
			for _, server := range below {
				group.Add(1)
				go func(url string) {
					defer group.Done()
					get(r.Context(), client, url)
				}(server.URL)
			}
			group.Wait()
			err := terncommode.Change(r.Context(), func(c terncommode.Context) (terncommode.Context, error) {
				return bag.Update([]terncommode.Context{c}, terncommode.Set("tags", terncommode.Quote(name)))
			})
			if err == nil {
				err = terncommode.Count(r.Context(), bag, "hops", 1)
			}
			if err != nil {
				http.Error(w, err.Error(), http.StatusInternalServerError)
			}
		}), terncommode.Lost()))
	}
	cart, pricing := service("cart"), service("pricing")
	gateway := service("gateway", cart, pricing)
	defer cart.Close()
	defer pricing.Close()
	defer gateway.Close()

	ctx := terncommode.With(context.Background(), terncommode.Context{})
	get(ctx, client, gateway.URL)
	tags, exact, _ := bag.Text(terncommode.From(ctx), "tags")
	fmt.Println(tags, exact)
	hops, exact, _ := bag.Text(terncommode.From(ctx), "hops")
	total, _, _ := strings.Cut(hops, "{")
	fmt.Println(total, exact)
	// Output:
	// {"cart","gateway","pricing"} true
	// 3 true
}

func get(ctx context.Context, client *http.Client, url string) {
	request, err := http.NewRequestWithContext(ctx, "GET", url, nil)
	if err != nil {
		panic(err)
	}
	if response, err := client.Do(request); err == nil {
		io.Copy(io.Discard, response.Body)
		response.Body.Close()
	}
}
