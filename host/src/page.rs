//! What every report has: its style, and the words for a reader who is new.

/// The style sheet, for a screen and for paper. Answers are told apart by their words and their frames, not by colour.
pub const STYLE: &str = "
:root { color-scheme: light; }
body { margin: 0 auto; max-width: 60rem; padding: 2rem 1.5rem 4rem; background: #fff; color: #111;
  font: 16px/1.5 Helvetica, Arial, 'Liberation Sans', 'DejaVu Sans', sans-serif; }
h1 { margin: 0 0 .25rem; font-size: 1.9rem; line-height: 1.2; }
h2 { margin: 2.5rem 0 .75rem; padding-bottom: .25rem; border-bottom: 2px solid #111; font-size: 1.35rem;
  overflow-wrap: anywhere; }
h3 { margin: 1.75rem 0 .5rem; font-size: 1.1rem; }
p { margin: .5rem 0; }
sup { line-height: 0; }
a { color: inherit; text-underline-offset: .15em; }
code { font-family: 'Liberation Mono', 'DejaVu Sans Mono', Menlo, Consolas, monospace; font-size: .9em; }
.version { color: #444; }
.wide { overflow-x: auto; }
table { width: 100%; border-collapse: collapse; font-size: .92rem; }
th, td { padding: .4rem .6rem; border-bottom: 1px solid #bbb; text-align: left; vertical-align: top; }
thead th { border-bottom: 2px solid #111; }
.summary th:first-child { width: 40%; min-width: 10rem; }
.summary td:first-child { overflow-wrap: anywhere; }
.number { text-align: right; font-variant-numeric: tabular-nums; }
.facts { width: auto; max-width: 100%; }
.facts th { padding-left: 0; font-weight: normal; color: #444; white-space: nowrap; }
.facts td { overflow-wrap: anywhere; }
.answer { display: inline-block; padding: 0 .45rem; border: 1.5px solid #111; border-radius: .25rem;
  font-weight: bold; white-space: nowrap; }
.answer-D { background: #111; color: #fff; -webkit-print-color-adjust: exact; print-color-adjust: exact; }
.answer-R, .answer-U { border-style: dashed; }
.answer-X { border-style: dotted; }
.sentence { margin: 1rem 0; padding: .5rem .9rem; border-left: 4px solid #111; background: #f4f4f4; overflow-wrap: anywhere; }
figure { margin: 1rem 0 0; border: 1px solid #bbb; }
figure svg { display: block; width: 100%; height: auto; }
@page { margin: 16mm; }
@media print {
  body { max-width: none; padding: 0; font-size: 10.5pt; }
  section:has(figure) { break-before: page; }
  h2, h3 { break-after: avoid; }
  thead { display: table-header-group; }
  tr, figure, .facts, .sentence, .reading { break-inside: avoid; }
  .wide { overflow: visible; }
  .sentence { background: none; }
  a { text-decoration: none; }
}
";

/// The answers in few words.
pub const ANSWERS: &str = "<h2>What the answers mean</h2>
<p><b>E</b> says that the outputs are the wanted word for every choice of the operands; <b>D</b> that they are not,
and it names operands for which they go wrong. <b>R</b> (more than T terms were needed) and <b>U</b> (the order left
gates over) say nothing of the block, which may be right or wrong, and <b>X</b> is a refusal: nothing was judged.</p>
<p>The readings say what is wanted of operands a and b of n bits, and of c: <b>u</b> the product of plain numbers,
<b>s</b> the product in two&#39;s complement, <b>t</b> the product modulo 2<sup>n</sup>, <b>m</b> the product of plain
numbers plus c modulo 2<sup>2n</sup>, <b>ms</b> the same with a and b in two&#39;s complement.</p>
";

/// What a reader may rely on.
pub const PROVED: &str = "<h2>What is proved</h2>
<p>Every answer on this page, with its numbers, is that of the Hraskell library. A machine has checked the proof that
the library answers E only where the outputs are the wanted word for all operands, and D only with operands that go
wrong, whatever order it is handed.</p>
<p>The finder of orders, the program that reads files and calls the library, and this page are not part of what is
proved. An order decides how many terms are needed; it cannot make a wrong block right or a right one wrong.</p>
";
