// Async by goroutines and finish by sync.WaitGroup, on as many threads as the last word says, to be measured
// beside `spd run`. Words: fib, finishes or asyncs, a count, how often it is done, and the threads.
package main

import (
	"fmt"
	"os"
	"runtime"
	"strconv"
	"sync"
	"sync/atomic"
)

// What runs beside one another until it has ended, and the sum of what it offers.
type finish struct {
	running sync.WaitGroup
	sum     atomic.Int64
}

func (f *finish) async(body func()) {
	f.running.Add(1)
	go func() {
		body()
		f.running.Done()
	}()
}

func (f *finish) fib(n int64) {
	if n < 2 {
		f.sum.Add(n)
		return
	}
	f.async(func() { f.fib(n - 1) })
	f.fib(n - 2)
}

// One finish, with its result.
func gathered(body func(*finish)) int64 {
	var f finish
	body(&f)
	f.running.Wait()
	return f.sum.Load()
}

func once(kind string, count int64) int64 {
	switch kind {
	case "fib":
		return gathered(func(f *finish) { f.fib(count) })
	case "finishes":
		for i := int64(0); i < count; i++ {
			gathered(func(f *finish) { f.async(func() {}) })
		}
		return count
	case "asyncs":
		return gathered(func(f *finish) {
			for i := int64(0); i < count; i++ {
				i := i
				f.async(func() { f.sum.Add(i) })
			}
		})
	}
	panic("a word that is none of these")
}

func number(word string) int64 {
	number, err := strconv.ParseInt(word, 10, 64)
	if err != nil {
		panic(err)
	}
	return number
}

func main() {
	runtime.GOMAXPROCS(int(number(os.Args[4])))
	total := int64(0)
	for i := int64(0); i < number(os.Args[3]); i++ {
		total += once(os.Args[1], number(os.Args[2]))
	}
	fmt.Println(total)
}
