// Writes the rows of a query on a document as numbers, of each variable the start and the end.
//
//	CGO_CFLAGS=$(pkg-config --cflags rematch) CGO_LDFLAGS=$(pkg-config --libs rematch) go run rows.go failed.query auth.log
package main

// #include <rematch.h>
// #include <stdlib.h>
import "C"
import (
	"fmt"
	"os"
	"unsafe"
)

func main() {
	text, _ := os.ReadFile(os.Args[1])
	document, _ := os.ReadFile(os.Args[2])
	query := (*C.rematch_query)(C.calloc(1, C.sizeof_rematch_query)) // slots are in memory of C, which does not move
	rows := (*C.rematch_rows)(C.calloc(1, C.sizeof_rematch_rows))
	defer func() {
		C.rematch_close(unsafe.Pointer(rows))
		C.rematch_close(unsafe.Pointer(query))
		C.free(unsafe.Pointer(rows))
		C.free(unsafe.Pointer(query))
	}()
	var note C.rematch_text
	status := C.rematch_compile(C.CBytes(text), C.size_t(len(text)), query, &note)
	if status == C.REMATCH_DONE {
		status = C.rematch_open(query, C.CBytes(document), C.size_t(len(document)), nil, rows, &note)
	}
	if status != C.REMATCH_DONE {
		fmt.Fprintln(os.Stderr, C.GoString(&note.bytes[0]))
		os.Exit(int(status))
	}
	var variables, given C.size_t
	C.rematch_variables(query, &variables)
	row := make([]C.uint32_t, 2*variables+1)
	for C.rematch_fill(rows, &row[0], C.size_t(len(row)), 1, &given) == C.REMATCH_DONE && given == 1 {
		fmt.Println(row[:2*variables])
	}
}
