// The exchanges of exchange.py on Go's own channels, on one processor: prints nanoseconds an exchange.
package main

import (
	"fmt"
	"os"
	"runtime"
	"strconv"
	"time"
)

// One goroutine sends and another receives, n times.
func exchange(c chan int32, n int) {
	done := make(chan bool)
	go func() {
		for i := 0; i < n; i++ {
			<-c
		}
		done <- true
	}()
	for i := 0; i < n; i++ {
		c <- int32(i)
	}
	<-done
}

// A select of 8 receives, all of closed channels, n times.
func selects(n int) {
	var c [8]chan int32
	for i := range c {
		c[i] = make(chan int32)
		close(c[i])
	}
	for i := 0; i < n; i++ {
		select {
		case <-c[0]:
		case <-c[1]:
		case <-c[2]:
		case <-c[3]:
		case <-c[4]:
		case <-c[5]:
		case <-c[6]:
		case <-c[7]:
		}
	}
}

func main() {
	runtime.GOMAXPROCS(1)
	kind := os.Args[1]
	idle, _ := strconv.Atoi(os.Args[2])
	never := make(chan int32)
	for i := 0; i < idle; i++ {
		go func() {
			select {
			case <-never:
			case <-never:
			}
		}()
	}
	runtime.Gosched()
	const n = 2_000_000
	begin := time.Now()
	switch kind {
	case "unbuffered":
		exchange(make(chan int32), n)
	case "buffered":
		exchange(make(chan int32, 4), n)
	case "select":
		selects(n)
	}
	fmt.Println(float64(time.Since(begin).Nanoseconds()) / n)
}
