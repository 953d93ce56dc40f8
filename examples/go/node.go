// A node of Go: it answers each frame 0x123 with a frame 0x124, whose first byte is one higher. It knows nothing of canbusd.
package main

import (
	"fmt"
	"net"
	"os"
	"syscall"
	"unsafe"
)

const (
	afCAN  = 29
	canRaw = 1
)

type address struct {
	family uint16
	_      uint16
	index  int32
	_      [16]byte
}

func fail(what string, err error) {
	fmt.Fprintln(os.Stderr, what, err)
	os.Exit(1)
}

func open(name string) *os.File {
	link, err := net.InterfaceByName(name)
	if err != nil {
		fail(name, err)
	}
	fd, err := syscall.Socket(afCAN, syscall.SOCK_RAW|syscall.SOCK_NONBLOCK|syscall.SOCK_CLOEXEC, canRaw)
	if err != nil {
		fail("socket", err)
	}
	to := address{family: afCAN, index: int32(link.Index)}
	_, _, errno := syscall.Syscall(syscall.SYS_BIND, uintptr(fd), uintptr(unsafe.Pointer(&to)), unsafe.Sizeof(to))
	if errno != 0 {
		fail("bind", errno)
	}
	return os.NewFile(uintptr(fd), name)
}

func main() {
	can := open(os.Args[1])
	fmt.Println("ready")
	for {
		var frame [16]byte
		if _, err := can.Read(frame[:]); err != nil {
			fail("read", err)
		}
		if frame[0] == 0x23 && frame[1] == 0x01 {
			frame[0]++
			frame[8]++
			if _, err := can.Write(frame[:]); err != nil {
				fail("write", err)
			}
		}
	}
}
