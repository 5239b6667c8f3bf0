//! What `--help` says.

use crate::commands::{Command, COMMANDS};
use crate::options::{Opt, HELP};

const PROGRAM: &str = "\
spireyerba lists the best readings of a spoken utterance under a weighted grammar: the least
weight first, none left out. A machine has checked a proof of the library that does it.

usage: spireyerba COMMAND ..
";

const PROGRAM_END: &str = "
A file is a text or a block, whichever it is; a file named - is standard input. `spireyerba help texts` says how
texts are written, `spireyerba COMMAND --help` what a command does.

Exit status: 0 answered, 1 refused, 2 wrong usage.

example: spireyerba list grammar.txt utterance.txt";

/// What the help of the program has before and behind its commands.
pub const PROGRAM_PARTS: [&str; 2] = [PROGRAM, PROGRAM_END];

/// The help about texts.
pub const TEXTS: &str = "\
A grammar: rules with a head, an arrow, and a body of symbols and quoted words.

  Entry   -> Name Details | Name Leaf [30]   # alternatives; a rule's weight in brackets, or 0
  Number  -> Tens Units [5]
           | \"twenty\" [10]                   # more alternatives of the head before
  Details -> Leaf \"fire\"?120 Minutes Side?   # what may be left out, and what its absence costs
  Leaf    -> (\"oak\" | \"steel\" [5]) Paint*   # one of several; any number, Paint+ for one or more
  Tens    -> Round [2]                       # a symbol alone: its rules, with weights added
  Units   -> \"four\" => \"4\"                  # what it becomes; $1 is the first part of a body, $2 the second

The first head is the start, and each symbol has a rule; `?`, `+` and `*` stand right behind their part. Rules, symbols and words are numbered as they are met; lines
`symbols Entry Name ..` and `words \"door\" \"twenty\" ..` before them give other numbers. At most 32 symbols, 200 words,
256 rules, weight 65535, 24 parts of a body. A word in a body of several items, and each item between the first and the
last, takes a symbol and a rule more, those of helpers, which no answer shows; what may be left out, chosen or repeated
takes rules, and some of it symbols; `lint` counts them. Where all bodies are one word or two symbols there are none. A
line `office` says that such a grammar is to be packed with marks all the same, and [helper] or [3 helper] marks a rule.

An utterance: a slot a line, or with semicolons between slots, of up to 24.

  door 4 | four 61                           # up to seven words, each with its cost
  \"new york\" 12 | newark 65535               # 65535: not heard

A confusion network as SRILM writes it, whose posteriors become costs by --scale X, -X times their logarithm:

  numaligns 2
  posterior 1
  align 0 door 0.96 four 0.54
  align 1 twenty 0.89 forty 0.82

Where one of its slots has *DELETE*, perhaps nothing was said there; --drop-deletes leaves that out.

A word graph, where an utterance may stand: an edge a line, from place to place.

  0 1 door 4                                 # up to 96 edges, numbered as they stand
  1 3 forty 24                               # up to 25 places
  3                                          # the last place

A lattice in HTK's standard format (SLF) is a word graph too, whose scores become costs by --scale X:

  # also lmscale=, acscale=, wdpenalty=, base=, start=, end=
  VERSION=1.0
  # nodes; a word may stand on a link or on the node where it ends
  I=0 t=0.00
  I=1 t=0.31
  # links; nothing is said on one with !NULL, <s>, </s> or no word
  J=0 S=0 E=1 W=door a=-0.03 l=-0.01

Other formats of recognisers stand where an utterance may too, told by what is in them, or by --format NAME:

  slf       HTK's lattices, of HTK, SRILM, PocketSphinx or Julius; links with p= alone have posteriors
  openfst   what fstprint writes: acceptors and transducers (their output words), <eps>, final weights, any numbers
  kaldi     lattices as text, many in one file: a name in a line, then arcs with graph,acoustic,ids
  network   SRILM's confusion networks
  nbest     a score and words a line; SRILM's and Kaldi's lists too
  ctm       NIST's time-marked words, with <ALT_BEGIN>, <ALT> and <ALT_END>
  json      Vosk, AWS Transcribe, Google, Azure

A lattice becomes a word graph: its links without words go to the word before them, each sentence has one path, at its least
cost (--paths keeps them all), and what does not fit into 25 places and 96 edges is pruned by the widest beam. A message
says then up to which weight every reading is in the list, and JSON has it as \"complete_up_to\"; --exact refuses instead.

A reading: its weight, and the rule number of each node, a node before its left part and that before its right part.

  72 0 2 12 3 13 15 8 17 11 20 21            # of slots
  80 0 2 12 5 8 17 11 20 21 | 0 3 7 9 12     # of a word graph: a bar, and the numbers of its path's edges

Under longer bodies it has the rules of the text; the nodes of helpers may be left out. Where parts may be left out,
chosen or repeated, 2.3 is the third of the rules that rule 2 becomes.

Sentences, to which `test` holds a grammar: one a line, derived or not, the first reading's weight and what it becomes.

  + door twenty four oak [5] => \"24 oak\"
  - door door                                # not derived

Shares: a whole number from 1 to 1024 for each rule of the grammar's text, in their order.

  922 102                                    # of 1024 entries 922 are by the first rule

example: spireyerba unpack grammar.bin";

/// The column in which the explanation of an option or a command begins.
const EXPLANATION: usize = 24;

/// The help of the program.
pub fn of_program() -> String {
    let commands: String = COMMANDS.iter().map(|command| row(command.name, command.summary)).collect();
    format!("{PROGRAM}\n{commands}{PROGRAM_END}")
}

/// The help of a command.
pub fn of_command(command: &Command) -> String {
    let mut text = format!("{}\n\nusage: spireyerba {}", sentence(command.summary), command.name);
    for (number, operand) in command.operands.iter().enumerate() {
        text += &if number < command.needed { format!(" {operand}") } else { format!(" [{operand}]") };
    }
    text += if command.options.is_empty() { "\n" } else { " [OPTION ..]\n" };
    if !command.details.is_empty() {
        text += &format!("\n{}\n", command.details);
    }
    text.push('\n');
    command.options.iter().for_each(|option| text += &row(&written(option), option.help));
    text += &row(&written(&HELP), HELP.help);
    format!("{text}\nexample: {}", command.example)
}

/// A summary as a sentence.
pub fn sentence(summary: &str) -> String {
    let (first, rest) = summary.split_at(1);
    format!("{}{rest}.", first.to_uppercase())
}

/// An option as it is typed.
fn written(option: &Opt) -> String {
    let short = option.short.map_or(String::new(), |short| format!("-{short}, "));
    let value = option.value.map_or(String::new(), |value| format!(" {value}"));
    format!("{short}--{}{value}", option.long)
}

fn row(name: &str, explanation: &str) -> String {
    format!("  {name:<width$} {explanation}\n", width = EXPLANATION - 3)
}
