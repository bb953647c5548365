package office

import (
	"fmt"
	"os"
	"strconv"
	"strings"
	"time"
)

// Processor is the time of a processor that a process has taken: proc(5), stat, in
// hundredths of a second.
func Processor(pid int) time.Duration {
	text, err := os.ReadFile(fmt.Sprintf("/proc/%d/stat", pid))
	if err != nil {
		return 0
	}
	fields := strings.Fields(string(text[strings.LastIndexByte(string(text), ')')+1:]))
	var sum int64
	for _, field := range fields[11:13] { // utime, stime
		n, err := strconv.ParseInt(field, 10, 64)
		if err != nil {
			return 0
		}
		sum += n
	}
	return time.Duration(sum) * 10 * time.Millisecond
}

// Stolen is the time of processors that the host of a virtual machine has kept from it:
// proc(5), the eighth number in the first line of /proc/stat.
func Stolen() time.Duration {
	text, err := os.ReadFile("/proc/stat")
	if err != nil {
		return 0
	}
	line, _, _ := strings.Cut(string(text), "\n")
	fields := strings.Fields(line)
	if len(fields) < 9 {
		return 0
	}
	n, err := strconv.ParseInt(fields[8], 10, 64)
	if err != nil {
		return 0
	}
	return time.Duration(n) * 10 * time.Millisecond
}

// Memory says how much a process holds, and held at most.
func Memory(pid int) string {
	text, err := os.ReadFile(fmt.Sprintf("/proc/%d/status", pid))
	if err != nil {
		return "memory unknown"
	}
	megabytes := func(name string) string {
		_, rest, _ := strings.Cut(string(text), name+":")
		n, err := strconv.Atoi(strings.TrimSuffix(strings.TrimSpace(strings.SplitN(rest, "\n", 2)[0]), " kB"))
		if err != nil {
			return "?"
		}
		return fmt.Sprintf("%.0f MB", float64(n)/1000)
	}
	return fmt.Sprintf("%s resident, at most %s", megabytes("VmRSS"), megabytes("VmHWM"))
}
