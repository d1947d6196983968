package rim

import (
	"fmt"
	"os"
	"path/filepath"
	"testing"
)

func read(t *testing.T, path string) []byte {
	data, err := os.ReadFile(filepath.Join("..", "..", path))
	if err != nil {
		t.Fatal(err)
	}
	return data
}

// example is a manifest of the examples, with its files.
func example(t *testing.T, name string) ([]byte, map[string][]byte) {
	manifest := read(t, "examples/"+name+"/manifest.toml")
	paths, err := Paths(manifest)
	if err != nil {
		t.Fatal(err)
	}
	files := map[string][]byte{}
	for _, path := range paths {
		files[path] = read(t, path)
	}
	return manifest, files
}

func TestReportsAreThoseOfTheProgram(t *testing.T) {
	for name, kept := range map[string]string{"first": "first-example", "kernel": "kernel-example", "vm": "virtual-machine"} {
		manifest, files := example(t, name)
		report, err := Measure(manifest, files)
		if expected := string(read(t, "tests/cases/"+kept+"/stdout")); err != nil || report != expected {
			t.Errorf("%s: %v %s, expected %s", name, err, report, expected)
		}
	}
}

func TestOneLaunch(t *testing.T) {
	manifest, files := example(t, "kernel")
	found, err := LaunchRim(manifest, files, "vm")
	line := fmt.Sprintf("rim-report 1\nvm %s %x\npages 5\n", found.Algorithm, found.Value)
	if expected := string(read(t, "tests/cases/kernel-example/stdout")); err != nil || line != expected {
		t.Errorf("%v %s, expected %s", err, line, expected)
	}
}

func TestFaultsHaveTheirCodes(t *testing.T) {
	manifest, files := example(t, "vm")
	_, refused := LaunchRim(manifest, files, "initrd-in-the-kernel")
	_, absent := LaunchRim(manifest, files, "none")
	_, missing := Measure(manifest, nil)
	_, syntax := Measure([]byte("\xff"), nil)
	for _, each := range [][2]error{{refused, Overlap}, {absent, NoSuchLaunch}, {missing, NoFile}, {syntax, Syntax}} {
		if each[0] != each[1] {
			t.Errorf("%v, expected %v", each[0], each[1])
		}
	}
}
