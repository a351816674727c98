// A client of the Debug Adapter Protocol on Debian's golang-github-google-go-dap-dev. It goes through a run of lock.asm
// in which an update is lost: main MTA_LAB EXAMPLES. Each message of the lab has to be one that the library reads as the
// type that its command or event has.
package main

import (
	"bufio"
	"encoding/json"
	"fmt"
	"io"
	"os"
	"os/exec"
	"path/filepath"

	"github.com/google/go-dap"
)

type client struct {
	in     io.WriteCloser
	out    *bufio.Reader
	seq    int
	events []dap.Message
	passed int
	failed int
}

// request begins a request of a command.
func (c *client) request(command string) dap.Request {
	c.seq++
	return dap.Request{ProtocolMessage: dap.ProtocolMessage{Seq: c.seq, Type: "request"}, Command: command}
}

// ask sends a request and gives its response. Events before it are kept.
func (c *client) ask(message dap.Message) dap.Message {
	if err := dap.WriteProtocolMessage(c.in, message); err != nil {
		c.stop("write", err)
	}
	for {
		answer := c.read()
		response, is := answer.(dap.ResponseMessage)
		if !is {
			c.events = append(c.events, answer)
			continue
		}
		if response.GetResponse().RequestSeq != c.seq {
			c.stop("response", fmt.Errorf("to %d, and not to %d", response.GetResponse().RequestSeq, c.seq))
		}
		return answer
	}
}

func (c *client) read() dap.Message {
	message, err := dap.ReadProtocolMessage(c.out)
	if err != nil {
		c.stop("read", err)
	}
	return message
}

// stopped gives the next stop.
func (c *client) stopped() dap.StoppedEventBody {
	for {
		var message dap.Message
		if len(c.events) > 0 {
			message, c.events = c.events[0], c.events[1:]
		} else {
			message = c.read()
		}
		if event, is := message.(*dap.StoppedEvent); is {
			return event.Body
		}
	}
}

func (c *client) stop(what string, err error) {
	fmt.Printf("%s: %v\n%d passed, %d failed\n", what, err, c.passed, c.failed+1)
	os.Exit(1)
}

// is compares what was wanted with what was got, as texts.
func (c *client) is(what string, wanted, got interface{}) {
	if fmt.Sprint(wanted) == fmt.Sprint(got) {
		c.passed++
		return
	}
	c.failed++
	fmt.Printf("%s: wanted %v, got %v\n", what, wanted, got)
}

// at compares a stop with its reason, its stream and its position.
func (c *client) at(what, reason string, p, s int, description string) {
	body := c.stopped()
	c.is(what, []interface{}{reason, 256*p + s + 1, description}, []interface{}{body.Reason, body.ThreadId, body.Description})
}

// value gives what an expression is in the frame of a stream.
func (c *client) value(expression string, p, s int) string {
	answer := c.ask(&dap.EvaluateRequest{Request: c.request("evaluate"),
		Arguments: dap.EvaluateArguments{Expression: expression, FrameId: 256*p + s + 1}})
	if response, is := answer.(*dap.EvaluateResponse); is {
		return response.Body.Result
	}
	return "refused"
}

// begin launches the program and sets the breakpoints.
func (c *client) begin(examples string) {
	source := filepath.Join(examples, "lock.asm")
	started, is := c.ask(&dap.InitializeRequest{Request: c.request("initialize"),
		Arguments: dap.InitializeRequestArguments{AdapterID: "mta", LinesStartAt1: true, ColumnsStartAt1: true}}).(*dap.InitializeResponse)
	c.is("initialize", true, is && started.Body.SupportsStepBack && started.Body.SupportsDataBreakpoints)
	arguments, _ := json.Marshal(map[string]interface{}{"program": source, "stopOnEntry": true,
		"schedule": filepath.Join(examples, "lock.lost_update.schedule")})
	_, is = c.ask(&dap.LaunchRequest{Request: c.request("launch"), Arguments: arguments}).(*dap.LaunchResponse)
	c.is("launch", true, is)
	c.points(source)
	c.ask(&dap.ConfigurationDoneRequest{Request: c.request("configurationDone")})
	c.at("entry", "entry", 2, 0, "after 0 of 8 steps")
}

// points sets a breakpoint on a line, one on a label and one on a word.
func (c *client) points(source string) {
	lines, is := c.ask(&dap.SetBreakpointsRequest{Request: c.request("setBreakpoints"), Arguments: dap.SetBreakpointsArguments{
		Source: dap.Source{Path: source}, Breakpoints: []dap.SourceBreakpoint{{Line: 21}}}}).(*dap.SetBreakpointsResponse)
	c.is("a breakpoint on a line", true, is && len(lines.Body.Breakpoints) == 1 && lines.Body.Breakpoints[0].Verified)
	labels, is := c.ask(&dap.SetFunctionBreakpointsRequest{Request: c.request("setFunctionBreakpoints"),
		Arguments: dap.SetFunctionBreakpointsArguments{Breakpoints: []dap.FunctionBreakpoint{{Name: "locked"}, {Name: "nowhere"}}}}).(*dap.SetFunctionBreakpointsResponse)
	c.is("a breakpoint on a label", true, is && labels.Body.Breakpoints[0].Verified && !labels.Body.Breakpoints[1].Verified)
	watched, is := c.ask(&dap.SetDataBreakpointsRequest{Request: c.request("setDataBreakpoints"), Arguments: dap.SetDataBreakpointsArguments{
		Breakpoints: []dap.DataBreakpoint{{DataId: "[8]"}}}}).(*dap.SetDataBreakpointsResponse)
	c.is("a breakpoint on a word", true, is && watched.Body.Breakpoints[0].Verified)
}

// moves goes to and fro.
func (c *client) moves() {
	c.ask(&dap.ContinueRequest{Request: c.request("continue"), Arguments: dap.ContinueArguments{ThreadId: 513}})
	c.at("to the line", "breakpoint", 2, 0, "after 3 of 8 steps")
	c.ask(&dap.ContinueRequest{Request: c.request("continue"), Arguments: dap.ContinueArguments{ThreadId: 513}})
	c.at("to the word", "data breakpoint", 2, 0, "after 4 of 8 steps")
	c.is("the word", "1, full", c.value("[8]", 2, 0))
	c.ask(&dap.StepBackRequest{Request: c.request("stepBack"), Arguments: dap.StepBackArguments{ThreadId: 769}})
	c.at("back over the other stream's step", "breakpoint", 2, 0, "after 3 of 8 steps")
	c.is("the word before", "0, full", c.value("[8]", 2, 0))
	c.is("a register of the other stream", "0", c.value("r2", 3, 0))
	c.ask(&dap.ReverseContinueRequest{Request: c.request("reverseContinue"), Arguments: dap.ReverseContinueArguments{ThreadId: 513}})
	c.at("back to the start", "step", 2, 0, "after 0 of 8 steps")
	c.ask(&dap.NextRequest{Request: c.request("next"), Arguments: dap.NextArguments{ThreadId: 769}})
	c.at("a step of the other stream", "step", 3, 0, "after 2 of 8 steps")
	c.ask(&dap.RestartRequest{Request: c.request("restart")})
	c.at("the start again", "entry", 2, 0, "after 0 of 8 steps")
}

// looks asks for what there is.
func (c *client) looks() {
	threads, is := c.ask(&dap.ThreadsRequest{Request: c.request("threads")}).(*dap.ThreadsResponse)
	c.is("threads", true, is && len(threads.Body.Threads) == 4 && threads.Body.Threads[2].Name == "2.0 bare")
	stack, is := c.ask(&dap.StackTraceRequest{Request: c.request("stackTrace"),
		Arguments: dap.StackTraceArguments{ThreadId: 513}}).(*dap.StackTraceResponse)
	c.is("a frame", true, is && len(stack.Body.StackFrames) == 1 && stack.Body.StackFrames[0].Line == 19)
	scopes, is := c.ask(&dap.ScopesRequest{Request: c.request("scopes"), Arguments: dap.ScopesArguments{FrameId: 513}}).(*dap.ScopesResponse)
	c.is("scopes", true, is && len(scopes.Body.Scopes) == 4)
	memory, is := c.ask(&dap.VariablesRequest{Request: c.request("variables"), Arguments: dap.VariablesArguments{
		VariablesReference: scopes.Body.Scopes[3].VariablesReference, Start: 1, Count: 1}}).(*dap.VariablesResponse)
	c.is("a page of the memory", true, is && len(memory.Body.Variables) == 1 && memory.Body.Variables[0].Name == "[8]")
	code, is := c.ask(&dap.DisassembleRequest{Request: c.request("disassemble"), Arguments: dap.DisassembleArguments{
		MemoryReference: "0x6", InstructionCount: 2}}).(*dap.DisassembleResponse)
	c.is("instructions", true, is && len(code.Body.Instructions) == 2 && code.Body.Instructions[0].Instruction == "LOAD.N r2, r0, 1")
	bytes, is := c.ask(&dap.ReadMemoryRequest{Request: c.request("readMemory"), Arguments: dap.ReadMemoryArguments{
		MemoryReference: "0x0", Count: 8}}).(*dap.ReadMemoryResponse)
	c.is("bytes", true, is && bytes.Body.Data == "AAAAAAAAAAA=")
	_, is = c.ask(&dap.SetVariableRequest{Request: c.request("setVariable")}).(*dap.ErrorResponse)
	c.is("no variable is set", true, is)
	_, is = c.ask(&dap.DisconnectRequest{Request: c.request("disconnect")}).(*dap.DisconnectResponse)
	c.is("disconnect", true, is)
}

func main() {
	lab := exec.Command(os.Args[1], "dap")
	in, _ := lab.StdinPipe()
	out, _ := lab.StdoutPipe()
	if err := lab.Start(); err != nil {
		fmt.Println(err)
		os.Exit(1)
	}
	c := &client{in: in, out: bufio.NewReader(out)}
	c.begin(os.Args[2])
	c.moves()
	c.looks()
	c.is("the end", nil, lab.Wait())
	fmt.Printf("%d passed, %d failed\n", c.passed, c.failed)
	if c.failed > 0 {
		os.Exit(1)
	}
}
