// Panics of Go by the runtime of GCC: recovered, deferred calls, again, in goroutines, of the runtime, and backtraces.
package main

import (
	"fmt"
	"os"
	"runtime"
	"strings"
)

var alive int

//go:noinline
func throwBelow(frames, number int) int {
	alive++
	defer func() { alive-- }()
	if frames == 0 {
		panic(number)
	}
	return throwBelow(frames-1, number) + frames
}

func caught(frames, number int) (found interface{}) {
	defer func() { found = recover() }()
	throwBelow(frames, number)
	return "not thrown"
}

func again() (found interface{}) {
	defer func() { found = recover() }()
	defer func() {
		number := recover().(int)
		panic(number + 1)
	}()
	throwBelow(3, 4)
	return "not thrown"
}

func replaced() (found interface{}) {
	defer func() { found = recover() }()
	defer func() { throwBelow(2, 6) }()
	throwBelow(3, 5)
	return "not thrown"
}

type node struct {
	next *node
	room [9000]int
}

//go:noinline
func at(numbers []int, i int) int { return numbers[i] }

//go:noinline
func last(first *node) int { return first.next.room[8000] }

func byRuntime(do func()) (found string) {
	defer func() { found = fmt.Sprint(recover()) }()
	do()
	return "not thrown"
}

func inGoroutines() int {
	sums := make(chan int)
	for i := 0; i < 8; i++ {
		go func(frames int) {
			sum := 0
			for j := 0; j < 100; j++ {
				func() {
					defer func() { sum += recover().(int) }()
					below(frames+j%20, 1)
				}()
			}
			sums <- sum
		}(i)
	}
	sum := 0
	for i := 0; i < 8; i++ {
		sum += <-sums
	}
	return sum
}

//go:noinline
func below(frames, number int) int {
	if frames == 0 {
		panic(number)
	}
	return below(frames-1, number) + frames
}

func exits(done chan bool) {
	defer func() { done <- true }()
	runtime.Goexit()
}

func main() {
	for _, frames := range []int{0, 1, 10, 100} {
		fmt.Println("caught", caught(frames, frames+1), "alive", alive)
	}
	fmt.Println("again", again(), "replaced by", replaced(), "alive", alive)
	fmt.Println(byRuntime(func() { at([]int{1}, 2) }))
	fmt.Println(byRuntime(func() { last(&node{}) }))
	fmt.Println("in goroutines", inGoroutines())
	done := make(chan bool)
	go exits(done)
	fmt.Println("exits", <-done)
	callers := make([]uintptr, 50)
	count := runtime.Callers(0, callers)
	frames := runtime.CallersFrames(callers[:count])
	for {
		frame, more := frames.Next()
		if strings.HasPrefix(frame.Function, "main.") {
			fmt.Println("frame", frame.Function)
		}
		if !more {
			break
		}
	}
	if len(os.Args) > 1 {
		throwBelow(3, 8)
	}
}
