package pages

import (
	"encoding/hex"
	"fmt"
	"math/bits"

	"mlscheckd/internal/follow"
)

// A drawing is a tree, or a part of it, in pixels.
type drawing struct {
	Width, Height         int
	Lines                 []line
	Boxes                 []box
	Parts                 bool // the tree has more leaves than are drawn
	First, Last, Leaves   int  // the leaves that are drawn, of all
	Before, After         bool // there are leaves before or after them
	BeforeLeaf, AfterLeaf int
}

type line struct{ X1, Y1, X2, Y2 int }

type box struct {
	X, Y, Width, Height int
	Class, Title        string
	Texts               []label
}

type label struct {
	X, Y        int
	Class, Text string
}

// Sizes in pixels.
const (
	mostLeaves = 64
	column     = 96
	widestBox  = 240
	boxHeight  = 60
	rowGap     = 34
	lineHeight = 16
	margin     = 12
)

// draw draws the tree with these nodes. Of a tree with more than 64 leaves it draws the part of 64 leaves that has a leaf.
func draw(nodes []follow.Node, leaf int) (d drawing) {
	leaves := 1
	for 2*leaves-1 < len(nodes) {
		leaves *= 2
	}
	shown := leaves
	if shown > mostLeaves {
		shown = mostLeaves
	}
	if leaf < 0 || leaf >= leaves {
		leaf = 0
	}
	first := leaf - leaf%shown
	d.Parts, d.First, d.Last, d.Leaves = leaves > shown, first, first+shown-1, leaves
	d.Before, d.BeforeLeaf = first > 0, first-shown
	d.After, d.AfterLeaf = first+shown < leaves, first+shown
	top := bits.Len(uint(shown)) - 1 // the level of the part's root
	d.Width = shown*column + 2*margin
	d.Height = (top+1)*(boxHeight+rowGap) - rowGap + 2*margin
	unmerged := unmergedLeaves(nodes)
	for index := 2 * first; index <= 2*(first+shown-1); index++ {
		level := bits.TrailingZeros(^uint(index))
		if level > top {
			continue
		}
		center := margin + (index-2*first+1)*column/2
		y := margin + (top-level)*(boxHeight+rowGap)
		if level < top {
			up := parent(index, level)
			d.Lines = append(d.Lines, line{center, y, margin + (up-2*first+1)*column/2, y - rowGap})
		}
		var node follow.Node
		if node.Blank = index >= len(nodes); !node.Blank {
			node = nodes[index]
		}
		d.Boxes = append(d.Boxes, drawn(index, level, node, center, y, unmerged))
	}
	return d
}

// parent returns the node index of the parent of a node at a level (RFC 9420, Appendix C).
func parent(index, level int) int {
	return (index | 1<<level) &^ (1 << (level + 1))
}

// unmergedLeaves returns the leaves that some parent lists as unmerged.
func unmergedLeaves(nodes []follow.Node) map[uint32]bool {
	all := map[uint32]bool{}
	for _, n := range nodes {
		for _, leaf := range n.Unmerged {
			all[leaf] = true
		}
	}
	return all
}

func drawn(index, level int, node follow.Node, center, y int, unmerged map[uint32]bool) box {
	width := column << level
	if width > widestBox {
		width = widestBox
	}
	width -= 10
	b := box{X: center - width/2, Y: y, Width: width, Height: boxHeight}
	texts := []string{fmt.Sprint(index)}
	if level == 0 {
		texts[0] = fmt.Sprintf("leaf %d", index/2)
	}
	switch {
	case node.Blank:
		b.Class, b.Title = "blank", fmt.Sprintf("node %d, blank", index)
		texts = append(texts, "blank")
	case node.Member != nil:
		b.Class = "leaf"
		if unmerged[node.Member.Leaf] {
			b.Class += " unmerged"
		}
		b.Title = fmt.Sprintf("node %d, %s, encryption key %x", index, credential(node.Member.Credential), node.Key)
		texts = append(texts, shortened(identity(node.Member.Credential), 12), keyFront(node.Key))
	default:
		b.Class, b.Title = "parent", fmt.Sprintf("node %d, encryption key %x, unmerged %v", index, node.Key, node.Unmerged)
		texts = append(texts, keyFront(node.Key))
		if len(node.Unmerged) > 0 {
			texts = append(texts, shortened(fmt.Sprintf("unmerged %v", node.Unmerged), width/7))
		}
	}
	for i, text := range texts {
		class := ""
		if i == 0 {
			class = "first"
		}
		b.Texts = append(b.Texts, label{center, y + lineHeight*(i+1), class, text})
	}
	return b
}

func identity(c follow.Credential) string {
	if c.Type == follow.CredentialBasic {
		return readable(c.Identity)
	}
	return "x509"
}

func keyFront(key []byte) string {
	if len(key) > 4 {
		return hex.EncodeToString(key[:4]) + "…"
	}
	return hex.EncodeToString(key)
}
