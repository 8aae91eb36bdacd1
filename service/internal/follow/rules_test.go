package follow

import (
	"os"
	"regexp"
	"strconv"
	"strings"
	"testing"
)

var (
	row  = regexp.MustCompile(`^\| (\d+) \| (\w+) \| (.*) \| (.*) \| (.*) \|$`)
	link = regexp.MustCompile(`\[([^\]]*)\]\([^)]*\)`)
)

func plain(text string) string {
	return strings.ReplaceAll(link.ReplaceAllString(text, "$1"), "`", "")
}

// The words are those of docs/FORMATS.md.
func TestRules(t *testing.T) {
	data, err := os.ReadFile("../../../docs/FORMATS.md")
	if err != nil {
		t.Fatal(err)
	}
	_, section, found := strings.Cut(string(data), "### Why a message is refused")
	if !found {
		t.Fatal("docs/FORMATS.md has no such section")
	}
	section, _, _ = strings.Cut(section, "\nThe order is")
	named := map[uint32]bool{}
	for _, line := range strings.Split(section, "\n") {
		cells := row.FindStringSubmatch(line)
		if cells == nil {
			continue
		}
		number, _ := strconv.Atoi(cells[1])
		want := RuleText{cells[2], plain(cells[3]), plain(cells[4])}
		if got := RuleOf(uint32(number)); got != want {
			t.Errorf("%d:\n%v\n%v", number, got, want)
		}
		named[uint32(number)] = true
	}
	for number := uint32(0); number < 200; number++ {
		if (RuleOf(number).Name != "") != named[number] {
			t.Error(number, RuleOf(number), named[number])
		}
	}
	if !named[7] || RuleOf(1<<31).Name != "" {
		t.Fatal(named)
	}
}

func TestRuleSets(t *testing.T) {
	all := Plain
	for n := 40; n <= 52; n++ {
		all |= Rule(n)
	}
	if all != Strict || Rule(39) != Plain || Rule(53) != Plain {
		t.Fatal(all)
	}
}

// Each number of a start has a name and words.
func TestStartFaults(t *testing.T) {
	for number := range startFaults {
		for inner := uint32(1); inner <= 5; inner++ {
			r := Refused{Number: number, Inner: inner}
			if number == startStrict {
				r.Inner += 39
			}
			if r.Name() == "" || strings.HasSuffix(r.Words(), ": ") || r.Words() == "" {
				t.Error(r, r.Words())
			}
		}
	}
}
