"""What a scan tells of texts of JavaScript: `tests/run SCAN_PROGRAM scans`.

Each case was worked out by hand from ECMA-262 and from what `import.meta.hot` means. A case of FOUND has a text and the
lines of its scan without their places, with ` / ` between them; the lines of `import.meta` and of the first statement
are left out. A case of FAULTS has a text and its one line, and one of PLACES a text and all of its lines.
"""
import re

from rows import Run, encoded

FOUND = [
    # regular expression or division
    ("x=async function(){}/'/'/1;import('a')", "import call 'a'"),
    ("class A{async*yield(){yield/'/}}import('a')", "import call 'a'"),
    ("let x\n/'/.test(1);import('a')", "import call 'a'"),
    ("export let x\n/'/.test(1);import('a')", "import call 'a' / exports x"),
    ("a=b\n/'/'/g;import('a')", "import call 'a'"),
    ("x=1.\nimport('a')", "import call 'a'"),
    ("({}).a/'/'/1;import('a')", "import call 'a'"),
    ("+{}/'/'/1;import('a')", "import call 'a'"),
    ("if(1)/'/;else/'/;import('a')", "import call 'a'"),
    ("return\n", ""),
    ("(function(){return\n{a:/'/}})", ""),
    ("a?b:c?d:{e:/'/};l:{/'/}", ""),
    ("export default{a:1}/'/'/1;import('a')", "import call 'a' / exports default"),
    ("export default function(){}/'/;import('a')", "import call 'a' / exports default"),
    ("export default class{}/'/;import('a')", "import call 'a' / exports default"),
    ("export default(class{})/'/'/1;import('a')", "import call 'a' / exports default"),
    ("export default async()=>{}\n/'/;import('a')", "import call 'a' / exports default"),
    ("export default[1]/'/'/1;import('a')", "import call 'a' / exports default"),
    ("export default async function f(){}/'/;import('a')", "import call 'a' / exports default"),
    ("export default async\nfunction f(){}/'/;import('a')", "import call 'a' / exports default"),
    ("x=>{}\n/'/;import('a')", "import call 'a'"),
    ("`${x=>{}}${{}/'/'/1}`;import('a')", "import call 'a'"),
    ("`a${`b${'`'}`}c`;import('a')", "import call 'a'"),
    ("a.if(x)/'/'/1;import('a')", "import call 'a'"),
    ("a?.if(x)/'/'/1;import('a')", "import call 'a'"),
    ("this.#if(x)/'/'/1;import('a')", "import call 'a'"),
    ("do;while(a)/'/;import('a')", "import call 'a'"),
    ("for(const x of/'/);import('a')", "import call 'a'"),
    ("for(;;/'/);import('a')", "import call 'a'"),
    ("for await(const x of[])/'/;import('a')", "import call 'a'"),
    ("switch(a){case/'/:default:/'/}import('a')", "import call 'a'"),
    ("a\n++/'/.x;import('a')", "import call 'a'"),
    ("a++/'/'/1;import('a')", "import call 'a'"),
    ("while(1)break\n/'/;import('a')", "import call 'a'"),
    ("l:while(1)continue l\n/'/;import('a')", "import call 'a'"),
    ("x=/[/'\"]/;import('a')", "import call 'a'"),
    ("x=/\\//;import('a')", "import call 'a'"),
    ("x=/a/.test(y)/'/'/1;import('a')", "import call 'a'"),
    ("x=function*(){yield\n/'/}/'/'/1;import('a')", "import call 'a'"),
    ("class A extends B{}/'/;import('a')", "import call 'a'"),
    ("x=class extends B{}/'/'/1;import('a')", "import call 'a'"),
    ("x=class extends class extends C{}{}/'/'/1;import('a')", "import call 'a'"),
    ("x=class extends{}.a{m(){}}/'/'/1;import('a')", "import call 'a'"),
    ("x={get a(){},b(){},async*c(){}}/'/'/1;import('a')", "import call 'a'"),
    ("class A{x=a\ny=/'/\n'z'(){}}/'/;import('a')", "import call 'a'"),
    ("import('a')/'/'/1", "import call 'a'"),
    ("import.meta.url/'/'/1;import('a')", "import call 'a'"),
    ("a/*\n*/++/'/.x;import('a')", "import call 'a'"),
    ("x=a?.5:/'/;import('a')", "import call 'a'"),
    ("x=a?.b/'/'/1;import('a')", "import call 'a'"),
    # words that are names
    ("a.import('x');a?.import('x');a.export;({import:1,export:2,import(){}});class A{import(){}static export=1}", ""),
    ("class A{import;export;static import;get import(){return 1}set import(x){}}", ""),
    ("x={async import(){},*export(){},get import(){return 1}};x=class{f=()=>{}\nimport(){}}", ""),
    ("class A{x=1\nimport(){}}class B{x=b\nimport(){}};class C{x=()=>{}\n*import(){}}", ""),
    ("class A{x=c?()=>{}:import('a')}", "import call 'a'"),
    ("class A{static{import('a')}}", "import call 'a'"),
    ("class A{[import('a')]=import('b')}", "import call 'a' / import call 'b'"),
    ("({[import('a')]:import('b'),...import('c')})", "import call 'a' / import call 'b' / import call 'c'"),
    ("importx('a');ximport('a');import$('a');import\u00e9('a')", ""),
    ("\\u0069mport('a')", ""),
    ("a.\nimport('x')", ""),
    ("a/**/./**/import('x')", ""),
    ("a\nimport b from'c'", "import 'c' / binds b to default"),
    ("a()\nexport{b}from'c'", "export from 'c' / exports b"),
    ("if(1){import('a')}", "import call 'a'"),
    # imports
    ("import{}from'a'", "import 'a'"),
    ("import a,{}from'a'", "import 'a' / binds a to default"),
    (
        "import{a,b as c,default as d,'e f' as g,}from\"a\"",
        "import \"a\" / binds a to a / binds c to b / binds d to default / binds g to 'e f'",
    ),
    (
        "import{as}from'a';import{as as b}from'a';import{c as as}from'a';import{as as as}from'b'",
        "import 'a' / import 'a' / import 'a' / import 'b' / binds as to as / binds b to as / binds as to c / binds as to as",
    ),
    (
        "import from from'a';import{from}from'b'",
        "import 'a' / import 'b' / binds from to default / binds from to from",
    ),
    ("import*as a from'a'import'b'", "import 'a' / import 'b' / binds a to *"),
    ("import a,*as b from'a'", "import 'a' / binds a to default / binds b to *"),
    ("import/**/{/*'*/a/*\"*/as/**/b//}\n}/**/from/**/'a'/**/;", "import 'a' / binds b to a"),
    ("import'a'\nimport\"b\"", "import 'a' / import \"b\""),
    (
        "import a from'a'with{type:'json'};import'b'with{'type':\"css\",}\nimport'c'",
        "import 'a', of type 'json' / import 'b', of type \"css\" / import 'c' / binds a to default",
    ),
    ("import a from'a'assert{type:'json'}\n/'/.x", "import 'a', of type 'json' / binds a to default"),
    ("import'a'\nassert\n({})", "import 'a'"),
    ("import'a'\nwithx", "import 'a'"),
    (
        "export*from'a'with{type:'json'};export{b}from'c'with{}",
        "export all from 'a', of type 'json' / export from 'c' / exports b",
    ),
    ("\ufeffimport a from'a'", "import 'a' / binds a to default"),
    ("#!/usr/bin/env 'node\nimport a from'a'", "import 'a' / binds a to default / hashbang"),
    ("import\u00a0a\u2003from\u3000'a'\u2028import'b'", "import 'a' / import 'b' / binds a to default"),
    ("//x\u2028import'a'", "import 'a'"),
    ("import{\u00fcn\u00ef as \\u{61}b}from'\u00e4'", "import '\u00e4' / binds \\u{61}b to \u00fcn\u00ef"),
    ("import a from'a\\'b'", "import 'a\\'b' / binds a to default"),
    ("import a from'a\\\r\nb'", "import 'a\\\r\nb' / binds a to default"),
    (
        "import('a',{with:{type:'json'}});import(`a`);import('a'+b);import(/*x*/'c'/*y*/);import(...d)",
        "import call 'a' / import call 'c' / import call of what isn't read off the text / import call of what isn't read off the text / import call of what isn't read off the text",
    ),
    ("import(import('a'))", "import call 'a' / import call of what isn't read off the text"),
    ("import(a,'b')", "import call of what isn't read off the text"),
    ("x=import.meta.import('a')", ""),
    ("import.source('a')", "import call 'a', its source"),
    # exports
    (
        "export const{a,b:c,d:{e=1},f:[g,,...h],...i}=x,[j]=k,l=()=>{},m=y=>({z}),n",
        "exports a / exports c / exports e / exports g / exports h / exports i / exports j / exports l / exports m / exports n",
    ),
    (
        "export const{a=function(){return{b,c}},['d']:e=(f,g),'h':i,1:j,[k]:{l}}=m,n=1",
        "exports a / exports e / exports i / exports j / exports l / exports n",
    ),
    ("export let a=1\nb,c=2", "exports a"),
    ("export let a=()=>{}\nb,c=2", "exports a"),
    ("export let a=()=>{},b=2", "exports a / exports b"),
    ("export let a=()=>{}\n[b,c].d,e=2", "exports a"),
    ("export let a=async x=>1,b", "exports a / exports b"),
    ("export let a=async\nx,b", "exports a"),
    ("export let a=x in y,b=x instanceof y,c", "exports a / exports b / exports c"),
    ("export let a=function f(g,h){},b=class C extends D{},c", "exports a / exports b / exports c"),
    ("export let a=b?c:d,e=`f${(g,h)}`,i={j,k}", "exports a / exports e / exports i"),
    ("export var a=1;b,c", "exports a"),
    ("export var a\n{b,c}", "exports a"),
    (
        "export function a(){}export function*b(){}export async function c(){}export async function*d(){}",
        "exports a / exports b / exports c / exports d",
    ),
    ("export class a{}export class b extends c{}", "exports a / exports b"),
    ("export default a,b", "exports default"),
    (
        "export{a as default,b as'c d',default as e}from'f';export{g,}",
        "export from 'f' / exports default / exports 'c d' / exports e / exports g",
    ),
    (
        "export*as default from'a';export*as'x'from'b';export*from'c'",
        "export from 'a' / export from 'b' / export all from 'c' / exports default / exports 'x'",
    ),
    ("export{}", ""),
    ("export{a}\nfrom'b'", "export from 'b' / exports a"),
    ("@dec export class A{}@dec(x)class B{}", "exports A"),
    # hot
    ("import.meta.hot.accept()", "accepts itself"),
    ("import.meta.hot?.accept()", "accepts itself"),
    ("import . meta\n.hot/**/.accept (/**/)", "accepts itself"),
    ("import.meta.hot.accept(m=>{import.meta.hot.accept('b',f)})", "accept 'b' / accepts itself / accepts modules"),
    ("import.meta.hot.accept('a')", "accept 'a' / accepts modules"),
    ("import.meta.hot.accept('a',m=>{import('b')})", "accept 'a' / import call 'b' / accepts modules"),
    ("import.meta.hot.accept(['a',\"b\",],([a,b])=>{})", "accept 'a' / accept \"b\" / accepts modules"),
    ("import.meta.hot.accept([])", "accepts modules"),
    ("import.meta.hot.accept(['a',b])", "accept 'a' / accepts what isn't read off the text"),
    ("import.meta.hot.accept(['a'].concat(b))", "accept 'a' / accepts what isn't read off the text"),
    ("import.meta.hot.accept('a'+b)", "accepts what isn't read off the text"),
    ("import.meta.hot.accept(`a`)", "accepts what isn't read off the text"),
    ("import.meta.hot.decline()", "declines"),
    (
        "import.meta.hot.decline;import.meta.hot.accept;import.meta.hot.acceptExports('a');import.meta.hotx.accept()",
        "",
    ),
    ("x.import.meta.hot.accept()", ""),
    ("if(import.meta.hot){import.meta.hot.dispose(()=>{})}", ""),
    # faults
    ("import a b", "binds a to default / declaration isn't known from here"),
    ("import{a b}from'c'", "binds a to a / declaration isn't known from here"),
    ("import{a}from c", "binds a to a / declaration isn't known from here"),
    ("import", "declaration isn't known from here"),
    ("export", "declaration isn't known from here"),
    ("export a", "declaration isn't known from here"),
    ("", ""),
    (" ", ""),
    ("\\", ""),
    ("\\u{", ""),
    ("#", ""),
    ("#!", "hashbang"),
    ("?.", ""),
    ("...", ""),
    ("=>", ""),
    ("export const", ""),
    ("import.", ""),
    # phases
    ("import defer*as a from'b'", "import 'b', deferred / binds a to *"),
    ("import defer from'b'", "import 'b' / binds defer to default"),
    ("import defer,*as a from'b'", "import 'b' / binds defer to default / binds a to *"),
    ("import source a from'b'", "import 'b', its source / binds a to default"),
    ("import source from'b'", "import 'b' / binds source to default"),
    ("import source from from'b'", "import 'b', its source / binds from to default"),
    ("import source,{a}from'b'", "import 'b' / binds source to default / binds a to a"),
    ("import.defer('a');import . source ( \"b\" , {})", "import call 'a', deferred / import call \"b\", its source"),
    ("import.defer(a)", "import call of what isn't read off the text"),
    ("import.defer", ""),
    # attributes
    ("import a from'b'with{a:'c',type:'json'}/'/", "import 'b', of type 'json' / binds a to default"),
    (
        "import a from'b'with{'type':'json',}\n/'/.x;import'c'",
        "import 'b', of type 'json' / import 'c' / binds a to default",
    ),
    ("import'b'with{type:json};import'c'", "import 'b' / import 'c'"),
    ("export{a}from'b'with{type:'css'};import'c'", "export from 'b', of type 'css' / import 'c' / exports a"),
    # forms that aren't known
    ("import type{A}from'b';import'c'", "import 'c' / binds type to default / declaration isn't known from here"),
    ("import{a b c}from'd';import'c'", "import 'c' / binds a to a / declaration isn't known from here"),
    ("import a=require('b');import'c'", "import 'c' / binds a to default / declaration isn't known from here"),
    ("export type{A}from'b';import'c'", "import 'c' / declaration isn't known from here"),
    ("export=x;import'c'", "import 'c' / declaration isn't known from here"),
    ("export{a b};export{c};import'd'", "import 'd' / exports a / exports c / declaration isn't known from here"),
    ("export@dec class A{}/'/;import'c'", "import 'c' / declaration isn't known from here"),
    ("import 5;import'c'", "import 'c' / declaration isn't known from here"),
    # comments of scripts
    ("<!-- it's\nf();\n--> it's\nimport('a')", "import call 'a'"),
    ("a<!--b/'/'/1\nimport('a')", "import call 'a'"),
    ("x=1;<!-- it's\nimport('a')", "import call 'a'"),
    ("while(n-->0)/'/;import('a')", "import call 'a'"),
    ("f()\n  /* */ --> it's\nimport('a')", "import call 'a'"),
    # accept
    ("import.meta.hot.accept(deps,()=>{})", "accepts what isn't read off the text"),
    ("import.meta.hot.accept(deps)", "accepts itself"),
    ("import.meta.hot.accept(deps,)", "accepts itself"),
    ("import.meta.hot.accept?.('a')", "accept 'a' / accepts modules"),
    ("import.meta.hot?.decline?.()", "declines"),
    ("// import.meta.hot.accept('a')\n/* import 'b' */'import.meta.hot.decline()'", ""),
    # where the first statement begins, and the first import.meta
]

FAULTS = [
    ("import.meta.hot.accept('a', () => { '", "1:37 string isn't closed"),
    ("'abc", "1:1 string isn't closed"),
    ("x='a\nb'", "1:3 string isn't closed"),
    ("\n `abc", "2:2 template isn't closed"),
    ("`a${b", "1:1 template isn't closed"),
    ("a\n/* x", "2:1 comment isn't closed"),
    ("x=/ab", "1:3 regular expression isn't closed"),
    ("x=/ab\n/", "1:3 regular expression isn't closed"),
    ("f(\n", "1:2 bracket isn't closed"),
    ("{[}", "1:3 bracket closes nothing"),
    ("a)", "1:2 bracket closes nothing"),
    ("export{a", "1:7 bracket isn't closed"),
    ("import a from'b", "1:14 string isn't closed"),
    ("import a from/*", "1:14 comment isn't closed"),
    ("import('", "1:8 string isn't closed"),
    ("`${import('a')", "1:1 template isn't closed"),
    ("class A extends B", "1:9 bracket isn't closed"),
    ("/", "1:1 regular expression isn't closed"),
    ("import.meta.hot.accept(", "1:23 bracket isn't closed"),
    ("a\r\nb\r\n'c", "3:1 string isn't closed"),
    ("{[`${(\n", "1:6 bracket isn't closed"),
    ("a\u2028'b", "1:5 string isn't closed"),
    ("\u00e9='b", "1:4 string isn't closed"),
]

PLACES = [
    ("", ["1:1 first statement"]),
    ("/**/", ["1:5 first statement"]),
    ("/*a*/\n//b\n  x;import.meta.a;import.meta", ["3:5 import.meta", "3:3 first statement"]),
    ("#!a\n\nx", ["1:1 hashbang", "3:1 first statement"]),
    ("\ufeff x", ["1:5 first statement"]),
    ("// import.meta\n'import.meta'", ["2:1 first statement"]),
    ("`${import.meta.url}`", ["1:4 import.meta", "1:1 first statement"]),
    ("\r\n\r\nimport './a.js'", ["3:8 import './a.js'", "3:1 first statement"]),
    ("/*\u00e9*/import a from 'b'", ["1:21 import 'b'", "1:14 binds a to default", "1:7 first statement"]),
    (
        "import a, { b as c } from 'd';\nexport { a as default, c };\n",
        [
            "1:27 import 'd'",
            "1:8 binds a to default",
            "1:18 binds c to b",
            "2:15 exports default",
            "2:24 exports c",
            "1:1 first statement",
        ],
    ),
    (
        "f(() => import('./a.js'));\nimport(b);\n",
        ["1:16 import call './a.js'", "2:1 import call of what isn't read off the text", "1:1 first statement"],
    ),
    (
        "import.meta.hot.accept(['a', 'b'], f);\nimport.meta.hot.decline()",
        ["1:25 accept 'a'", "1:30 accept 'b'", "1:1 accepts modules", "2:1 declines", "1:1 import.meta", "1:1 first statement"],
    ),
    ("import type { T } from 't'", ["1:8 binds type to default", "1:13 declaration isn't known from here", "1:1 first statement"]),
]


def pattern(lines):
    """The pattern of an output that has these lines, without their places, and those that are left out."""
    told = "".join(r"\d+:\d+ " + re.escape(line) + "\n" for line in lines)
    meta, hashbang = r"(\d+:\d+ import\.meta\n)?", ""
    if lines and lines[-1] == "hashbang":
        told = "".join(r"\d+:\d+ " + re.escape(line) + "\n" for line in lines[:-1])
        hashbang = "1:1 hashbang\n"
    return re.compile(encoded(told + meta + hashbang + r"\d+:\d+ first statement\n"))


def runs():
    for text, told in FOUND:
        yield Run([], encoded(text), 0, pattern(told.split(" / ") if told else []))
    for text, told in FAULTS:
        yield Run([], encoded(text), 0, encoded(told + "\n"))
    for text, told in PLACES:
        yield Run([], encoded(text), 0, encoded("".join(line + "\n" for line in told)))
