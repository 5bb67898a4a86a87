package main

import (
	"errors"
	"os"
	"syscall"
)

func min(one, other int) int {
	if one < other {
		return one
	}
	return other
}

func max(one, other int64) int64 {
	if one > other {
		return one
	}
	return other
}

func least(one, other int64) int64 {
	if one < other {
		return one
	}
	return other
}

// firstOf is the first text, or the other one where that is empty.
func firstOf(text, other string) string {
	if text != "" {
		return text
	}
	return other
}

// cause is what the system says of a fault, without the call and the file.
func cause(err error) string {
	var number syscall.Errno
	var path *os.PathError
	switch {
	case errors.As(err, &number):
		return number.Error()
	case errors.As(err, &path):
		return path.Err.Error()
	}
	return err.Error()
}
