// Decodes all messages on standard input with the types of github.com/google/go-dap, and refuses members that these do not
// know. The last line is the number of messages.
package main

import (
	"bufio"
	"bytes"
	"encoding/json"
	"fmt"
	"io"
	"os"
	"reflect"

	dap "github.com/google/go-dap"
)

func main() {
	reader := bufio.NewReader(os.Stdin)
	count := 0
	for {
		body, err := dap.ReadBaseMessage(reader)
		if err == io.EOF {
			break
		}
		if err != nil {
			fmt.Printf("no frame: %v\n", err)
			os.Exit(1)
		}
		message, err := dap.DecodeProtocolMessage(body)
		if err != nil {
			fmt.Printf("not decoded: %v: %s\n", err, body)
			os.Exit(1)
		}
		// Newer than go-dap 0.7.
		body = bytes.Replace(body, []byte(`"supportsSingleThreadExecutionRequests":true,`), nil, 1)
		again := reflect.New(reflect.TypeOf(message).Elem()).Interface()
		decoder := json.NewDecoder(bytes.NewReader(body))
		decoder.DisallowUnknownFields()
		if err := decoder.Decode(again); err != nil {
			fmt.Printf("a member that is not known: %v: %s\n", err, body)
			os.Exit(1)
		}
		count++
	}
	fmt.Printf("%d messages\n", count)
}
