"""Programs that read and write contexts with the code of tools/accessors, for bindings/tests/accessors.

Each reads lines `K HEX` and goes through the context HEX with the code of table K. For each slot it writes `PATH exact TEXT`, `PATH partial TEXT` or
`PATH ill OFFSET`, the text made from the typed value by this file's own functions, and then a line `again HEX`: what an update makes of the writes of
all values that were read, or `again !`. The types of values are named wherever they are handed on, so a value of another type doesn't compile."""
import importlib.util
import os
import sys

TOP = os.path.dirname(os.path.dirname(os.path.dirname(os.path.abspath(__file__))))


CARGO = """[package]
name = "driver"
version = "0.1.0"
edition = "2021"

[workspace]

[dependencies]
terncommode = {{ path = "{repository}/bindings/rust/terncommode" }}
"""
MODULE = "module {name}\n\ngo 1.19\n\nrequire terncommode v0.0.0\n\nreplace terncommode => {repository}/bindings/go\n"
WARNINGS = "-Wall -Wextra -Wpedantic -Wconversion -Wsign-conversion -Werror".split()
SANITIZERS = []  # which of them the compiler has here


def generator(typed, language):
    """The module of a language, from a folder that may have a planted mistake."""
    for name in ("model", f"in_{language}"):
        spec = importlib.util.spec_from_file_location(name, os.path.join(typed, f"{name}.py"))
        module = sys.modules[name] = importlib.util.module_from_spec(spec)
        spec.loader.exec_module(module)
    return sys.modules["model"], module


def shows_of(driver, typed, tables, path_of):
    """Of each table the function that shows what its accessors read; their code is written to the path that belongs to its place."""
    name, shows = driver.__name__, []
    model, module = generator(typed, name.lower())
    for place, text in enumerate(tables):
        code = getattr(module, name)(f"t{place}", model.Table(text))
        code.module = module
        with open(path_of(place), "w", encoding="utf-8") as file:
            file.write(code.code())
        shows.append(driver(code).show(place))
    return shows


# Rust

RUST = r'''
use std::collections::{BTreeMap, BTreeSet};
use std::io::BufRead;
use terncommode::{Bag, Context, Error, Field};

fn string(text: &str) -> String {
    let mut out = String::from("\"");
    for letter in text.chars() {
        match letter {
            '"' => out += "\\\"",
            '\\' => out += "\\\\",
            '\0'..='\x1f' | '\x7f' => out += &format!("\\x{:02x}", letter as u32),
            _ => out.push(letter),
        }
    }
    out + "\""
}

fn bytes(data: &[u8]) -> String {
    data.iter().fold("0x".into(), |out: String, byte| out + &format!("{byte:02x}"))
}

fn on(value: bool) -> String {
    if value { "on".into() } else { "off".into() }
}

fn absent<T>(value: &Option<T>, text: impl Fn(&T) -> String) -> String {
    value.as_ref().map_or("-".into(), text)
}

fn set<T>(values: &BTreeSet<T>, text: impl Fn(&T) -> String) -> String {
    format!("{{{}}}", values.iter().map(text).collect::<Vec<_>>().join(","))
}

fn counter(counts: &BTreeMap<Vec<u8>, u64>) -> String {
    let total: u128 = counts.values().map(|count| u128::from(*count)).sum();
    format!("{total}{{{}}}", counts.iter().map(|(writer, count)| format!("{}:{count}", bytes(writer))).collect::<Vec<_>>().join(","))
}

fn map<K, V>(values: &BTreeMap<K, V>, key: impl Fn(&K) -> String, text: impl Fn(&V) -> String) -> String {
    format!("{{{}}}", values.iter().map(|(k, v)| key(k) + ":" + &text(v)).collect::<Vec<_>>().join(","))
}

fn told<T>(path: &str, read: Result<Field<T>, Error>, text: impl Fn(&T) -> String) -> Option<T> {
    match read {
        Ok(field) => {
            println!("{path} {} {}", if field.exact { "exact" } else { "partial" }, text(&field.value));
            Some(field.value)
        }
        Err(Error::IllTyped { input: 0, offset }) => {
            println!("{path} ill {offset}");
            None
        }
        Err(other) => panic!("{other:?}"),
    }
}

fn again(table: &str, writes: &terncommode::Writes) {
    match Bag::new(table).unwrap().update([], writes) {
        Ok(context) => println!("again {}", &bytes(context.as_bytes())[2..]),
        Err(error) => println!("again ! {error:?}"),
    }
}
'''


class Rust:
    """The driver in Rust."""

    def __init__(self, code):
        self.code = code

    def kind(self, kind, value):
        """The text of a value that is borrowed."""
        def word(word, value):
            return {"string": f"string({value})", "bytes": f"bytes({value})"}.get(word, f"{value}.to_string()")
        if kind.is_struct:
            return f'format!("({",".join(["{}"] * len(kind.words))})", {", ".join(word(each, f"&{value}.{place}" if each in ("string", "bytes") else f"{value}.{place}") for place, each in enumerate(kind.words))})'
        return word(kind.word, value)

    def text(self, shape, value):
        """The text of a value that is borrowed."""
        kind = shape.kind and f"|v: &{self.kind_type(shape.kind)}| {self.kind(shape.kind, 'v')}"
        if shape.word == "taint":
            return f"on(*{value})"
        if shape.word == "counter":
            return f"counter({value})"
        if shape.word == "map":
            return f"map({value}, |k: &{self.kind_type(shape.key)}| {self.kind(shape.key, 'k')}, |v| {self.text(shape.value, 'v')})"
        if shape.word == "bag":
            parts = [f'"{inner.name}=".to_string() + &{self.text(inner.shape, f"(&{value}.{self.code.field_names[inner]})")}' for inner in shape.fields]
            return f'format!("[{{}}]", [{", ".join(parts)}].join(","))' if parts else '"[]".to_string()'
        return f"{'set' if shape.word == 'set' else 'absent'}({value}, {kind})"

    def kind_type(self, kind):
        return self.code.module.kind_type(kind)

    def written(self, names, shape, value, keys):
        """The statements that write a value."""
        call = f"w = w.{self.code.writer_names.get(names)}"
        argument = lambda kind, name: name if kind.is_struct or kind.word in ("string", "bytes") else f"*{name}"  # noqa: E731
        before = "".join(f"{argument(kind, key)}, " for kind, key in keys)
        if shape.word == "taint":
            return f"if *{value} {{ {call}({before}); }}"
        if shape.word == "counter":
            return f"for (writer, count) in {value} {{ {call}({before}writer, *count); }}"
        if shape.word == "map":
            key, inner = f"key{len(keys)}", f"value{len(keys)}"
            return f"for ({key}, {inner}) in {value} {{ {self.written(names, shape.value, inner, keys + [(shape.key, key)])} }}"
        if shape.word == "bag":
            used = f"let _ = {value}; " if not shape.fields else ""
            return used + " ".join(self.written(names + (inner.name,), inner.shape, f"(&{value}.{self.code.field_names[inner]})", keys) for inner in shape.fields)
        return f"for value in {value} {{ {call}({before}{argument(shape.kind, 'value')}); }}"

    def show(self, place):
        """The function that shows a context under a table."""
        code, lines = self.code, []
        for slot in code.table.slots:
            lines.append(f'    let value = told("{slot.path}", reader.{code.reader_names[slot]}(), |v: &{self.type_of(slot.shape, place)}| {self.text(slot.shape, "v")});\n'
                         f"    if let Some(value) = &value {{ {self.written(slot.names, slot.shape, 'value', [])} }}\n")
        return (f"#[allow(unused_mut, unused_parens, unused_variables)]\nfn show_{place}(context: &Context) {{\n    let reader = t{place}::T{place}::of(context);\n"
                f"    let mut w = t{place}::T{place}Writes::new();\n{''.join(lines)}    again(t{place}::TABLE, w.writes());\n}}\n")

    def type_of(self, shape, place):
        if shape.word == "bag":
            return f"t{place}::{self.code.bag_types[shape]}"
        if shape.word == "map":
            return f"BTreeMap<{self.kind_type(shape.key)}, {self.type_of(shape.value, place)}>"
        return self.code.type_of(shape)


def rust(folder, typed, tables, repository):
    """Writes the program in Rust, and gives the command that builds it and its file."""
    os.makedirs(f"{folder}/src")
    shows = shows_of(Rust, typed, tables, lambda place: f"{folder}/src/t{place}.rs")
    places = range(len(tables))
    # Included, as code from a build.rs is, and in a crate without anything unsafe.
    main = "#![forbid(unsafe_code)]\n" + "".join(f'mod t{place} {{ include!("t{place}.rs"); }}\n' for place in places) + RUST + "".join(shows) + """
fn main() {
    for line in std::io::stdin().lock().lines() {
        let line = line.unwrap();
        let (place, digits) = line.split_once(' ').unwrap();
        let data: Vec<u8> = (0..digits.len() / 2).map(|k| u8::from_str_radix(&digits[2 * k..2 * k + 2], 16).unwrap()).collect();
        let context = Context::from_bytes(&data).unwrap();
        match place {
""" + "".join(f'            "{place}" => show_{place}(&context),\n' for place in places) + "            _ => panic!(),\n        }\n    }\n}\n"
    with open(f"{folder}/src/main.rs", "w", encoding="utf-8") as file:
        file.write(main)
    with open(f"{folder}/Cargo.toml", "w", encoding="utf-8") as file:
        file.write(CARGO.format(repository=repository))
    return ["cargo", "build", "--offline", "--quiet"], f"{folder}/target/debug/driver"


# Go

GO = r'''
type unit = struct{}

func str(text string) string {
	out := "\""
	for k := 0; k < len(text); k++ {
		switch letter := text[k]; {
		case letter == '"' || letter == '\\':
			out += "\\" + string(rune(letter))
		case letter < 0x20 || letter == 0x7f:
			out += fmt.Sprintf("\\x%02x", letter)
		default:
			out += text[k : k+1]
		}
	}
	return out + "\""
}

func octets(data []byte) string { return fmt.Sprintf("0x%x", data) }

func number[T any](value T) string { return fmt.Sprint(value) }

func on(value bool) string {
	if value {
		return "on"
	}
	return "off"
}

func absent[T any](value *T, text func(T) string) string {
	if value == nil {
		return "-"
	}
	return text(*value)
}

func set[T any](values []T, text func(T) string) string {
	var out []string
	for _, value := range values {
		out = append(out, text(value))
	}
	return "{" + strings.Join(out, ",") + "}"
}

func sorted[K comparable, V any](values map[K]V, less func(a, b K) bool) []K {
	var keys []K
	for key := range values {
		keys = append(keys, key)
	}
	sort.Slice(keys, func(i, j int) bool { return less(keys[i], keys[j]) })
	return keys
}

func smaller[K int32 | int64 | uint32 | uint64 | string](a, b K) bool { return a < b }

func falseFirst(a, b bool) bool { return !a && b }

func counter(counts parts.Counts) string {
	var out []string
	for _, writer := range sorted(counts, smaller[string]) {
		out = append(out, fmt.Sprintf("%s:%d", octets([]byte(writer)), counts[writer]))
	}
	return counts.Total().String() + "{" + strings.Join(out, ",") + "}"
}

func mapped[K comparable, V any](values map[K]V, less func(a, b K) bool, key func(K) string, text func(V) string) string {
	var out []string
	for _, k := range sorted(values, less) {
		out = append(out, key(k)+":"+text(values[k]))
	}
	return "{" + strings.Join(out, ",") + "}"
}

func told[T any](path string, field terncommode.Field[T], err error, text func(T) string) bool {
	var ill terncommode.IllTyped
	if errors.As(err, &ill) {
		fmt.Fprintf(out, "%s ill %d\n", path, ill.Offset)
		return false
	}
	state := "partial"
	if field.Exact {
		state = "exact"
	}
	fmt.Fprintf(out, "%s %s %s\n", path, state, text(field.Value))
	return true
}

func again(bag terncommode.Bag, writes []terncommode.Write) {
	c, err := bag.Update(nil, writes...)
	if err != nil {
		fmt.Fprintln(out, "again !", err)
		return
	}
	fmt.Fprintf(out, "again %x\n", c.Bytes())
}

var out = bufio.NewWriter(os.Stdout)
'''


class Go:
    """The driver in Go."""

    def __init__(self, code, place):
        self.code, self.place = code, place

    def word(self, word, value):
        return {"string": f"str({value})", "bytes": f"octets({value})"}.get(word, f"number({value})")

    def kind(self, kind, value):
        if kind.is_struct:
            return '"(" + ' + ' + "," + '.join(self.word(word, f"{value}.F{place}") for place, word in enumerate(kind.words)) + ' + ")"'
        return self.word(kind.word, value)

    def kind_type(self, kind):
        return f"t{self.place}.{self.code.struct_types[kind]}" if kind.is_struct else self.code.module.TYPES[kind.word]

    def type_of(self, shape):
        if shape.word in ("scalar", "greatest"):
            return "*" + self.kind_type(shape.kind)
        if shape.word == "set":
            return "[]" + self.kind_type(shape.kind)
        if shape.word == "map":
            return f"map[{self.code.key_type(shape.key)}]{self.type_of(shape.value)}"
        return {"taint": "bool", "counter": "parts.Counts", "bag": f"t{self.place}.{self.code.bag_types.get(shape)}"}[shape.word]

    def text(self, shape, value):
        """The text of a value."""
        if shape.word == "taint":
            return f"on({value})"
        if shape.word == "counter":
            return f"counter({value})"
        if shape.word == "map":
            key = self.code.key_type(shape.key)
            less = "falseFirst" if key == "bool" else f"smaller[{key}]"
            text = "octets([]byte(k))" if shape.key.word == "bytes" else self.kind(shape.key, "k")
            return (f"mapped({value}, {less}, func(k {key}) string {{ return {text} }}, "
                    f"func(v {self.type_of(shape.value)}) string {{ return {self.text(shape.value, 'v')} }})")
        if shape.word == "bag":
            texts = [f'"{inner.name}=" + {self.text(inner.shape, f"{value}.{self.code.field_names[inner]}")}' for inner in shape.fields]
            return '"[" + ' + ' + "," + '.join(texts) + ' + "]"' if texts else '"[]"'
        return f"{'set' if shape.word == 'set' else 'absent'}({value}, func(v {self.kind_type(shape.kind)}) string {{ return {self.kind(shape.kind, 'v')} }})"

    def written(self, names, shape, value, keys):
        """The statements that write a value."""
        call = f"w.{self.code.writer_names.get(names)}"
        arguments = [f"[]byte({key})" if kind.word == "bytes" else key for kind, key in keys]
        if shape.word == "taint":
            return f"if {value} {{ {call}({', '.join(arguments)}) }}\n"
        if shape.word == "counter":
            return f"for writer, count := range {value} {{ {call}({', '.join(arguments + ['[]byte(writer)', 'count'])}) }}\n"
        if shape.word == "map":
            key, inner = f"key{len(keys)}", f"value{len(keys)}"
            return f"for {key}, {inner} := range {value} {{ _, _ = {key}, {inner}\n{self.written(names, shape.value, inner, keys + [(shape.key, key)])} }}\n"
        if shape.word == "bag":
            return "".join(self.written(names + (inner.name,), inner.shape, f"{value}.{self.code.field_names[inner]}", keys) for inner in shape.fields)
        if shape.word == "set":
            return f"for _, value := range {value} {{ {call}({', '.join(arguments + ['value'])}) }}\n"
        return f"if {value} != nil {{ {call}({', '.join(arguments + ['*' + value])}) }}\n"

    def show(self):
        code, lines = self.code, []
        for slot in code.table.slots:
            lines.append(f"\t{{ f, err := reader.{code.reader_names[slot]}()\n"
                         f'\tif told("{slot.path}", f, err, func(v {self.type_of(slot.shape)}) string {{ return {self.text(slot.shape, "v")} }}) {{\n'
                         f"{self.written(slot.names, slot.shape, 'f.Value', [])}\t}} }}\n")
        reader = f"\treader := t{self.place}.Read(c)\n" if lines else ""
        return (f"func show{self.place}(c terncommode.Context) {{\n{reader}\tvar w t{self.place}.Writes\n{''.join(lines)}"
                f"\tagain(t{self.place}.Bag(), w.List())\n}}\n\n")


def go(folder, typed, tables, repository):
    """Writes the program in Go, and gives the command that builds it and its file."""
    model, module = generator(typed, "go")
    shows = []
    for place, text in enumerate(tables):
        code = module.Go(f"t{place}", model.Table(text))
        code.module = module
        os.makedirs(f"{folder}/t{place}")
        with open(f"{folder}/t{place}/t{place}.go", "w", encoding="utf-8") as file:
            file.write(code.code())
        shows.append(Go(code, place).show())
    imports = "".join(f'\t"driver/t{place}"\n' for place in range(len(tables)))
    cases = "".join(f'\t\tcase "{place}":\n\t\t\tshow{place}(c)\n' for place in range(len(tables)))
    main = f"""package main

import (
	"bufio"
	"encoding/hex"
	"errors"
	"fmt"
	"os"
	"sort"
	"strings"

	"terncommode"
	"terncommode/parts"
{imports})
{GO}
{''.join(shows)}func main() {{
	defer out.Flush()
	in := bufio.NewScanner(os.Stdin)
	in.Buffer(nil, 1<<24)
	for in.Scan() {{
		place, digits, _ := strings.Cut(in.Text(), " ")
		data, _ := hex.DecodeString(digits)
		c, err := terncommode.Parse(data)
		if err != nil {{
			panic(err)
		}}
		switch place {{
{cases}		}}
	}}
}}
"""
    with open(f"{folder}/main.go", "w", encoding="utf-8") as file:
        file.write(main)
    with open(f"{folder}/go.mod", "w", encoding="utf-8") as file:
        file.write(MODULE.format(name="driver", repository=repository))
    return ["go", "build", "-o", "driver", "."], f"{folder}/driver"


# C++

CPP = r'''
#include <cstdio>
#include <iostream>
#include <type_traits>

namespace {

using octets = std::vector<std::uint8_t>;

std::string hex(std::string_view data) {
    static const char digits[] = "0123456789abcdef";
    std::string out;
    for (const char letter : data) {
        const auto byte = static_cast<std::uint8_t>(letter);
        out += digits[byte >> 4];
        out += digits[byte & 15];
    }
    return out;
}

std::string str(const std::string &text) {
    std::string out = "\"";
    for (const char letter : text) {
        const auto byte = static_cast<std::uint8_t>(letter);
        if (byte < 0x20 || byte == 0x7f)
            out += "\\x" + hex(std::string_view(&letter, 1));
        else
            out += (letter == '"' || letter == '\\' ? std::string("\\") : std::string()) + letter;
    }
    return out + '"';
}

std::string bytes(const octets &data) { return "0x" + hex(std::string(data.begin(), data.end())); }

template <class T> std::string number(T value) {
    if constexpr (std::is_same_v<T, bool>)
        return value ? "true" : "false";
    else
        return std::to_string(value);
}

std::string on(bool value) { return value ? "on" : "off"; }

template <class T, class Text> std::string absent(const std::optional<T> &value, Text text) { return value ? text(*value) : "-"; }

template <class T, class Text> std::string set(const std::set<T> &values, Text text) {
    std::string out;
    for (const T &value : values)
        out += (out.empty() ? "" : ",") + text(value);
    return "{" + out + "}";
}

std::string counter(const std::map<std::string, std::uint64_t> &counts) {
    std::string out, total;
    for (const auto &[writer, count] : counts)
        out += (out.empty() ? "0x" : ",0x") + hex(writer) + ":" + std::to_string(count);
    auto sum = terncommode::parts::total(counts);
    do
        total.insert(total.begin(), static_cast<char>('0' + static_cast<int>(sum % 10)));
    while ((sum /= 10) != 0);
    return total + "{" + out + "}";
}

template <class K, class V, class Key, class Text> std::string map(const std::map<K, V> &values, Key key, Text text) {
    std::string out;
    for (const auto &[k, v] : values)
        out += (out.empty() ? "" : ",") + key(k) + ":" + text(v);
    return "{" + out + "}";
}

template <class T, class Text> bool told(const char *path, const terncommode::result<terncommode::field<T>, terncommode::refusal> &read, Text text) {
    if (!read)
        std::cout << path << " ill " << read.error().offset << '\n';
    else
        std::cout << path << (read->exact ? " exact " : " partial ") << text(read->value) << '\n';
    return read.has_value();
}

void again(std::string_view table, const terncommode::writes &writes) {
    const auto made = terncommode::bag::from(table).value().update(std::vector<terncommode::context>(), writes);
    std::cout << "again " << (made ? hex(made->view()) : "! " + made.error().message()) << '\n';
}

'''


class Cpp:
    """The driver in C++."""

    def __init__(self, code):
        self.code = code

    def word(self, word, value):
        return {"string": f"str({value})", "bytes": f"bytes({value})"}.get(word, f"number({value})")

    def kind(self, kind, value):
        if kind.is_struct:
            return '"(" + ' + ' + "," + '.join(self.word(word, f"std::get<{place}>({value})") for place, word in enumerate(kind.words)) + ' + ")"'
        return self.word(kind.word, value)

    def text(self, shape, value):
        """The text of a value."""
        kind_type = self.code.module.kind_type
        if shape.word in ("taint", "counter"):
            return f"{'on' if shape.word == 'taint' else 'counter'}({value})"
        if shape.word == "map":
            return (f"map({value}, [](const {kind_type(shape.key)} &k) {{ return {self.kind(shape.key, 'k')}; }}, "
                    f"[](const {self.code.type_of(shape.value)} &v) {{ return {self.text(shape.value, 'v')}; }})")
        if shape.word == "bag":
            texts = [f'"{inner.name}=" + {self.text(inner.shape, f"{value}.{self.code.field_names[inner]}")}' for inner in shape.fields]
            return 'std::string("[") + ' + ' + "," + '.join(texts) + ' + "]"' if texts else f'((void){value}, std::string("[]"))'
        return f"{'set' if shape.word == 'set' else 'absent'}({value}, [](const {kind_type(shape.kind)} &v) {{ return {self.kind(shape.kind, 'v')}; }})"

    def written(self, names, shape, value, keys):
        """The statements that write a value."""
        call = f"w.{self.code.writer_names.get(names)}"
        if shape.word == "taint":
            return f"if ({value}) {call}({', '.join(keys)}); "
        if shape.word == "counter":
            return f"for (const auto &[from, count] : {value}) {call}({', '.join(keys + ['from', 'count'])}); "
        if shape.word == "map":
            key, inner = f"key{len(keys)}", f"value{len(keys)}"
            return f"for (const auto &[{key}, {inner}] : {value}) {{ (void){key}; (void){inner}; {self.written(names, shape.value, inner, keys + [key])}}} "
        if shape.word == "bag":
            return "".join(self.written(names + (inner.name,), inner.shape, f"{value}.{self.code.field_names[inner]}", keys) for inner in shape.fields)
        if shape.word == "set":
            return f"for (const auto &value : {value}) {call}({', '.join(keys + ['value'])}); "
        return f"if ({value}) {call}({', '.join(keys + ['*' + value])}); "

    def show(self, place):
        code, lines = self.code, []
        for slot in code.table.slots:
            lines.append(f"    {{\n        const auto read = reader.{code.reader_names[slot]}();\n"
                         f'        if (told<{code.type_of(slot.shape)}>("{slot.path}", read, [](const {code.type_of(slot.shape)} &v) {{ return {self.text(slot.shape, "v")}; }})) {{\n'
                         f"            const auto &value = read->value;\n            (void)value;\n            {self.written(slot.names, slot.shape, 'value', [])}\n        }}\n    }}\n")
        return (f"void show_{place}(const terncommode::context &context) {{\n    const t{place}::reader reader(context);\n    t{place}::writer w;\n{''.join(lines)}"
                f"    again(t{place}::table, w.writes());\n}}\n\n")


def cpp(folder, typed, tables, repository, prefix):
    """Writes the program in C++, and gives the command that builds it and its file."""
    shows = shows_of(Cpp, typed, tables, lambda place: f"{folder}/t{place}.hpp")
    includes = "".join(f'#include "t{place}.hpp"\n' for place in range(len(tables)))
    cases = "".join(f'        case {place}: show_{place}(context); break;\n' for place in range(len(tables)))
    with open(f"{folder}/main.cc", "w", encoding="utf-8") as file:
        file.write(includes + CPP + "".join(shows) + """} // namespace

int main() {
    for (std::string line; std::getline(std::cin, line);) {
        const std::size_t space = line.find(' ');
        std::string data;
        for (std::size_t k = space + 1; k + 1 < line.size(); k += 2)
            data += static_cast<char>(std::stoi(line.substr(k, 2), nullptr, 16));
        const auto context = terncommode::context::from(data).value();
        switch (std::stoi(line.substr(0, space))) {
""" + cases + "        default: return 1;\n        }\n    }\n}\n")
    return compile_cpp(repository, prefix), f"{folder}/driver"


def compile_cpp(repository, prefix):
    """The command that compiles a program in C++ under the sanitizers."""
    includes = [f"-I{repository}/bindings/cpp", f"-I{repository}/bindings/c", f"-I{prefix}/include"]
    return ["g++", "-std=c++17", "-O0", *WARNINGS, *SANITIZERS, *includes, "main.cc", f"{prefix}/lib/libbaggage.a", "-o", "driver"]


# C

C_CODE = r'''
#include <stdio.h>
#include <stdlib.h>

static char room[1 << 22];
static baggage_lines lines;

static void bytes(baggage_text text) {
    uint8_t *plain = malloc(text.length + 1);
    size_t length = baggage_copy(plain, text), k;
    for (k = 0; k < length; k++)
        printf("%02x", plain[k]);
    free(plain);
}

static void str(baggage_text text) {
    uint8_t *plain = malloc(text.length + 1);
    size_t length = baggage_copy(plain, text), k;
    putchar('"');
    for (k = 0; k < length; k++)
        if (plain[k] < 0x20 || plain[k] == 0x7f)
            printf("\\x%02x", plain[k]);
        else
            printf(plain[k] == '"' || plain[k] == '\\' ? "\\%c" : "%c", plain[k]);
    putchar('"');
    free(plain);
}

static void counter_total(baggage_total total) {
    char digits[40];
    size_t first = sizeof digits;
    do { /* 2^64 is 1844674407370955161 times 10 and 6 */
        uint64_t rest = total.high % 10 * 6 + total.low % 10;
        uint64_t low = total.low / 10 + total.high % 10 * UINT64_C(1844674407370955161) + rest / 10;
        digits[--first] = (char)('0' + rest % 10);
        total.high /= 10;
        total.low = low;
    } while (total.high || total.low);
    printf("%.*s", (int)(sizeof digits - first), digits + first);
}

static void again(const char *table, size_t table_len) {
    static uint8_t made[1 << 20];
    baggage_answer answer = {BAGGAGE_WRITE, 0, 0, 0, 0};
    size_t k;
    if (lines.size <= lines.room_len)
        answer = baggage_update(BAGGAGE_FORM_ONE, table, table_len, NULL, 0, room, lines.size, BAGGAGE_NO_BUDGET, made, sizeof made);
    printf(answer.status == BAGGAGE_OK ? "again " : "again !");
    for (k = 0; k < answer.size; k++)
        printf("%02x", made[k]);
    putchar('\n');
}

static int told(const char *path, enum baggage_state state, size_t offset) {
    if (state == BAGGAGE_ILL_TYPED)
        printf("%s ill %zu\n", path, offset);
    else
        printf("%s %s ", path, state == BAGGAGE_EXACT ? "exact" : "partial");
    return state != BAGGAGE_ILL_TYPED;
}

'''


class C:
    """The driver in C."""

    def __init__(self, code):
        self.code = code

    def call(self, verb, names):
        return f"{self.code.name}_{verb}_{'_'.join(names)}"

    def word(self, word, value):
        formats = {"int32": "PRId32", "int64": "PRId64", "uint32": "PRIu32", "uint64": "PRIu64"}
        if word == "bool":
            return f'printf("%s", {value} ? "true" : "false");'
        if word == "string":
            return f"str({value});"
        if word == "bytes":
            return f'printf("0x"); bytes({value});'
        return f'printf("%" {formats[self.code.module.TYPES[word].removesuffix("_t")]}, {value});'

    def kind(self, kind, value):
        if not kind.is_struct:
            return self.word(kind.word, value)
        return "putchar('(');" + "putchar(',');".join(self.word(word, f"{value}.f{place}") for place, word in enumerate(kind.words)) + "putchar(')');"

    def kind_type(self, kind):
        return self.code.struct_types[kind.text] if kind.is_struct else self.code.module.TYPES[kind.word]

    def text(self, names, shape, depth=0):
        """The statements that print a value, whose part is `partN`."""
        part, rest = f"part{depth}", f"rest{depth}"
        if shape.word == "taint":
            return f'printf({self.call("is", names)}({part}) ? "on" : "off");'
        if shape.word in ("scalar", "greatest"):
            return f"{{ {self.kind_type(shape.kind)} value; if ({self.call('get', names)}({part}, &value)) {{ {self.kind(shape.kind, 'value')} }} else putchar('-'); }}"
        if shape.word == "set":
            return (f"{{ {self.kind_type(shape.kind)} value; baggage_part {rest} = {part}; int more = 0; putchar('{{'); while ({self.call('next', names)}(&{rest}, &value)) "
                    f"{{ if (more++) putchar(','); {self.kind(shape.kind, 'value')} }} putchar('}}'); }}")
        if shape.word == "counter":
            return (f"{{ baggage_text writer; uint64_t count; baggage_part {rest} = {part}; int more = 0; counter_total({self.call('total', names)}({part})); putchar('{{'); "
                    f"while ({self.call('next', names)}(&{rest}, &writer, &count)) {{ printf(more++ ? \",0x\" : \"0x\"); bytes(writer); printf(\":%\" PRIu64, count); }} putchar('}}'); }}")
        if shape.word == "map":
            inner = self.code.module.value_names(names, shape)
            return (f"{{ {self.kind_type(shape.key)} key; baggage_part {rest} = {part}, part{depth + 1}; int more = 0; putchar('{{'); while ({self.call('next', names)}(&{rest}, &key, &part{depth + 1})) "
                    f"{{ if (more++) putchar(','); {self.kind(shape.key, 'key')} putchar(':'); {self.text(inner, shape.value, depth + 1)} }} putchar('}}'); }}")
        texts = [f"{{ baggage_part part{depth + 1} = {self.call('at', names + (inner.name,))}({part}); printf(\"{inner.name}=\"); {self.text(names + (inner.name,), inner.shape, depth + 1)} }}"
                 for inner in shape.fields]
        return "putchar('[');" + "putchar(',');".join(texts) + "putchar(']');" + (f"(void){part};" if not texts else "")

    def written(self, names, path, shape, keys, depth=0):
        """The statements that write a value; `path` are the names without those of the values of maps."""
        part, rest = f"part{depth}", f"rest{depth}"
        write = lambda verb, *more: f"{self.call(verb, path)}({', '.join(['&lines', *keys, *more])});"  # noqa: E731
        if shape.word == "taint":
            return f"if ({self.call('is', names)}({part})) {write('mark')}"
        if shape.word in ("scalar", "greatest"):
            return f"{{ {self.kind_type(shape.kind)} value; if ({self.call('get', names)}({part}, &value)) {write('set', 'value')} }}"
        if shape.word == "set":
            return f"{{ {self.kind_type(shape.kind)} value; baggage_part {rest} = {part}; while ({self.call('next', names)}(&{rest}, &value)) {write('add', 'value')} }}"
        if shape.word == "counter":
            return (f"{{ baggage_text writer; uint64_t count; baggage_part {rest} = {part}; while ({self.call('next', names)}(&{rest}, &writer, &count)) "
                    f"{write('count', 'writer', 'count')} }}")
        if shape.word == "map":
            inner, key = self.code.module.value_names(names, shape), f"key{depth}"
            return (f"{{ {self.kind_type(shape.key)} {key}; baggage_part {rest} = {part}, part{depth + 1}; while ({self.call('next', names)}(&{rest}, &{key}, &part{depth + 1})) "
                    f"{{ (void){key}; {self.written(inner, path, shape.value, keys + [key], depth + 1)} }} }}")
        return "".join(f"{{ baggage_part part{depth + 1} = {self.call('at', names + (inner.name,))}({part}); "
                       f"{self.written(names + (inner.name,), path + (inner.name,), inner.shape, keys, depth + 1)} }}" for inner in shape.fields) or f"(void){part};"

    def show(self, place):
        name, lines = self.code.name, []
        for k, slot in enumerate(self.code.table.slots):
            lines.append(f"    if (told(\"{slot.path}\", {self.call('state', slot.names)}(&found), found.places[{k}].offset)) {{\n"
                         f"        baggage_part part0 = {self.call('at', slot.names)}(&found);\n        {self.text(slot.names, slot.shape)}\n        putchar('\\n');\n"
                         f"        {self.written(slot.names, slot.names, slot.shape, [])}\n    }}\n")
        return (f"static void show_{place}(const uint8_t *context, size_t length) {{\n    {name} found;\n    if ({name}_find(&found, context, length).status != BAGGAGE_OK)\n"
                f"        exit(3);\n    lines.room = room;\n    lines.room_len = sizeof room;\n    lines.size = 0;\n{''.join(lines)}    again({name}_table, sizeof {name}_table - 1);\n}}\n\n")


def c(folder, typed, tables, repository, prefix):
    """Writes the program in C, and gives the command that builds it and its file."""
    shows = shows_of(C, typed, tables, lambda place: f"{folder}/t{place}.h")
    includes = "#include <inttypes.h>\n" + "".join(f'#include "t{place}.h"\n' for place in range(len(tables)))
    cases = "".join(f'        case {place}: show_{place}(data, length); break;\n' for place in range(len(tables)))
    with open(f"{folder}/main.c", "w", encoding="utf-8") as file:
        file.write(includes + C_CODE + "".join(shows) + """int main(void) {
    static char line[1 << 22]; /* hexadecimal digits of a context */
    while (fgets(line, sizeof line, stdin)) {
        char *digits = strchr(line, ' ') + 1;
        size_t length = strcspn(digits, "\\n") / 2, k;
        uint8_t *data = malloc(length ? length : 1); /* as long as it is, so that the sanitizer sees what is read beyond it */
        for (k = 0; k < length; k++) {
            unsigned byte;
            sscanf(digits + 2 * k, "%2x", &byte);
            data[k] = (uint8_t)byte;
        }
        switch (atoi(line)) {
""" + cases + "        default: return 1;\n        }\n        free(data);\n    }\n    return 0;\n}\n")
    return compile_c(repository, prefix), f"{folder}/driver"


def compile_c(_, prefix):
    """The command that compiles a program in C under the sanitizers."""
    return ["gcc", "-std=c99", "-O0", *WARNINGS, "-Wcast-qual", "-Wno-unused-function", *SANITIZERS, f"-I{prefix}/include", "main.c", f"{prefix}/lib/libbaggage.a", "-o", "driver"]


# The programs of ACCESSORS.md

EXAMPLE = {"c": ("c", "main.c"), "cpp": ("cpp", "main.cc"), "rust": ("rust", "src/main.rs"), "go": ("go", "main.go")}
CHECKOUT = {"c": "checkout.h", "cpp": "checkout.hpp", "rust": "src/checkout.rs", "go": "checkout/checkout.go"}


def example(folder, language, page, table, repository, prefix):
    """Writes the program of a page in a language, and gives the command that builds it and its file."""
    with open(page, encoding="utf-8") as file:
        program = file.read().split(f"```{EXAMPLE[language][0]}\n")[1].split("```")[0]
    for name, text in ((EXAMPLE[language][1], program), (CHECKOUT[language], table)):
        os.makedirs(os.path.dirname(f"{folder}/{name}"), exist_ok=True)
        with open(f"{folder}/{name}", "w", encoding="utf-8") as file:
            file.write(text)
    if language == "rust":
        with open(f"{folder}/Cargo.toml", "w", encoding="utf-8") as file:
            file.write(CARGO.format(repository=repository))
        return ["cargo", "build", "--offline", "--quiet"], f"{folder}/target/debug/driver"
    if language == "go":
        with open(f"{folder}/go.mod", "w", encoding="utf-8") as file:
            file.write(MODULE.format(name="example", repository=repository))
        return ["go", "build", "-o", "driver", "."], f"{folder}/driver"
    return (compile_cpp if language == "cpp" else compile_c)(repository, prefix) + ["-Wshadow"], f"{folder}/driver"
