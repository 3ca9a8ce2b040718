#!/usr/bin/env python3
"""Renames public names of jx by the table below, whole words only, in .rt, .antt, .edit and .md files.

usage: rename.py [--top FOLDER] [--apply] [--only OLD]... [--table FILE]

Without --apply nothing is written (a dry run): for each row it prints how many places change, in how many files, and why a row is held back.
With --apply the rows of class "whole" are done: text, files of that name, and the folders of proofs that have a function's name (git mv). Run it on a clean clone,
then: tests/index --write, tests/crates --write, tests/boundary --write, rt check of every crate (each crate is proved again).
--only takes rows by their old name; --table writes names.md.

What counts as a place: in .rt and .antt a word of the code, or one between backticks in a comment, never one in a string or in plain words of a
comment. In .edit any word. In .md a word between backticks or in an indented block.

Classes:
  whole   the old name is defined in one crate alone (its tests aside), isn't listed below as common, every file with it stands in that
          crate or names it (files of crates that never do are left alone), and the new name stands in no file that would change.
  clash   the new name is already a word of a file that would change, or defined in the same crate: choose another.
  shared  the old name means several things: do it by hand, or by --only OLD --in CRATE.
  gone    the old name isn't defined any more.
With --in CRATE (only together with --only) a row is done in the files of that crate alone, whatever its class but "gone" and "clash".
"""

import argparse
import collections
import os
import re
import subprocess
import sys

# crate, what it is, old, new
ROWS = [row.split() for row in """
jx_options fn order_said parse_order
jx_options fn style_said parse_style
jx_options fn form_said parse_form
jx_options fn parts_said parse_tile_parts
jx_options fn precincts_said parse_precincts
jx_options fn reduce_said parse_reduce
jx_options fn rsiz_said parse_rsiz
jx_options fn seed_said parse_seed
jx_options fn number_said parse_number

jx_options fn side_said parse_side
jx_options fn what help_text
jx_options fn listed choices
jx_options type Marks MarkerOptions
jx_options field most window_bytes
jx_cli fn read_words parse_transcode
jx_cli fn read_make parse_make
jx_cli fn read_same parse_same
jx_cli fn read_show parse_show
jx_cli fn read_boxes parse_boxes
jx_cli type Pair SameArgs
jx_cli type Boxes BoxesArgs
jx_cli type Show ShowArgs
jx_cli type Make MakeArgs
jx_cli type Request TranscodeArgs
jx_cli type WordsFault UsageError
jx_cli field from input
jx_cli field to output
jx_io fn say print
jx_io type Step FileOperation
jx_io type Gate ProgressObserver
jx_io type SureFiles MemoryFiles
jx_io type Refused IoError
jx_io type Store MemoryFileStore
jx_io type StoredFile MemoryFile
jx_io fn is_asked progress_wanted
jx_io_memory type SureSink MemorySink
jx_codestream fn violated rule_fault
jx_codestream type Body TilePartData
jx_codestream field notes comments
jx_codestream type Draft TileBuilder
jx_codestream type Entries ProgressionEntries
jx_marker variant Broken Violated
jx_packet_header type Leaf PrecinctBlock
jx_geom type Leaves PrecinctBlocks
jx_geom fn count_known count_unless_empty
jx_geom fn has_no_place has_no_samples
jx_tile type TileFrame TileContext
jx_tile fn names packets
jx_tile fn cells_of blocks_by_band
jx_tile fn sizes_of block_sizes
jx_packet_header type HeadFault PacketHeaderError
jx_packet_header type HeaderPart Contribution
jx_packet_header type LeafPart LayerContribution
jx_packet_header fn zero zero_bit_planes
jx_tagtree fn reach query
jx_tagtree fn past exceeds
jx_mq fn looked bytes_consumed
jx_mq fn given_out bytes_emitted
jx_mq fn places pending_bits
jx_mq fn with_room with_capacity
jx_tier1 fn decode_flags decode_block
jx_tier1 fn encode_flags encode_block
jx_tier1 fn recode_flags recode_block
jx_tier1 fn same_flags blocks_equal
jx_tier1 fn sound_flags check_segmentation_symbols
jx_tier1 type FlagGrid Coefficients
jx_tier1 type Pen SegmentWriter
jx_tier1 type Noter CoefficientSink
jx_tier1 type Copier TranscodingSource
jx_tier1 type Half ComparedReader
jx_tier1_specs type Stand EncoderPosition
jx_tier1_specs trait Source DecisionSource
jx_tier1_specs fn ask decide
jx_tier1_specs type Question Decision
jx_tier1_specs type About DecisionKind
jx_tier1_specs fn is_sure never_fails
jx_store type Named Outcome
jx_store type Taped Committed
jx_store fn spend consume
jx_ring type Pass WorkerHandle
jx_ring type Turns Steps
jx_ring type Win ClaimWon
jx_ring type Deal SplitRange
jx_plan fn first_broken first_causal_conflict
jx_plan fn first_crowded first_over_164_passes
jx_plan fn ask_jobs plan_blocks
jx_plan fn shortened reborrow
jx_plan fn plan_served plan_by_first
jx_plan type Misfit PrecinctConflict
jx_plan type OutStream OutputPlan
jx_plan fn first_unmet first_failed_condition
jx_layers type StreamFacts StreamInfo
jx_layers type PassFacts PassInfo
jx_tile_parts fn part_end tile_part_end
jx_tier2_writer type Sending PrecinctPackets
jx_tier2_writer fn sendings_of precinct_packets
jx_tier2_writer trait Coded BlockBytes
jx_tier2_writer type TileOut PackedTile
jx_tier2_writer type AssembleFault PackError
jx_rounds type Crew Workers
jx_rounds type Making OutputContext
jx_rounds type Halt WriteError
jx_rounds type Mark BytePosition
jx_rounds fn laid deferred
jx_rounds type Held BufferedTileParts
jx_rounds fn held_parts buffer_tile_parts
jx_rounds fn measured_parts measure_tile_parts
jx_rounds fn indexed_head main_header_with_tlm
jx_rounds type BlindWriter NullWriter
jx_rounds fn is_blind discards
jx_rounds const ENOUGH FLUSH_BYTES
jx_transcode type Ending RunEnd
jx_transcode type Report RunReport
jx_transcode type Unlike CompareFailure
jx_transcode spec told_of_all status_of_reduce
jx_transcode fn anew_in count_recoded
jx_same type Spot ValuePosition
jx_same type Side TileSide
jx_same type Shelf DecodedCache
jx_same fn are_alike blocks_equal_by_coding
jx_show type Name FactName
jx_show type Word FactWord
jx_show type Value FactValue
jx_jp2 fn find find_codestream
jx_jp2 fn around split_at_codestream
jx_jp2 type Head BoxHeader
jx_codestream law first_is_told first_is_the_walk
jx_codestream law told_is_first walk_is_first
jx_mq law ends_are_told ends_are_known
jx_raw law raw_ends_are_told raw_ends_are_known
jx_plan law breaks_are_told conflicts_are_found
jx_plan law crowds_are_told crowds_are_found
jx_tier1_specs law ends_of_passes_are_told ends_of_passes_are_known
jx_codeblock law coded_anew_has_new_segments recoded_has_new_segments
jx_codeblock law coded_anew_keeps_coefficients recoded_keeps_coefficients
jx_codeblock law coded_anew_is_sound recoded_is_sound
jx_tier2_reader law laid_is_cut_up packets_are_cut
jx_tier2_reader law laid_is_gathered packets_are_gathered
""".split("\n") if row]
# Words that std, the kit or nearly every file uses: never done as whole words of the repository.
COMMON = set("""what listed most from to say notes names zero reach past looked places ask left find around head whole sent values answer
print decode input output Name Word Value Step Source Store""".split())
BACKTICKS = re.compile(r"`[^`\n]*`")
NAMES = re.compile(r"\b[A-Za-z_]\w*\b")

def git(top, *arguments):
    return subprocess.run(["git", "-C", top, *arguments], stdout=subprocess.PIPE, check=True, text=True).stdout

def spans_of(path, text):
    """Yields the spans (from, end) of a file in which words count."""
    if path.endswith(".edit"):
        yield 0, len(text)
    elif path.endswith(".md"):
        for line in re.finditer(r".*\n?", text):
            if line[0].startswith(("    ", "\t")):
                yield line.start(), line.end()
            else:
                for found in BACKTICKS.finditer(line[0]):
                    yield line.start() + found.start(), line.start() + found.end()
    else:
        # comments and strings cut the code; an attribute of .rt is code
        comment = r"//[^\n]*" if path.endswith(".rt") else r"(?:(?<=\s)|^)--(?:[^\n]*)"
        last = 0
        for found in re.finditer(comment + r'|b?"(?:\\.|[^"\\])*"' + r"|'(?:\\.|[^'\\])'", text, re.M):
            yield last, found.start()
            if found[0].startswith(("//", "--")):
                for mark in BACKTICKS.finditer(found[0]):
                    yield found.start() + mark.start(), found.start() + mark.end()
            last = found.end()
        yield last, len(text)

class Repository:
    def __init__(self, top):
        self.top = top
        listed = git(top, "ls-files", "-z", "--", "*.rt", "*.antt", "*.edit", "*.md").split("\0")
        self.text = {}
        for path in listed:
            if path and os.path.isfile(os.path.join(top, path)):
                with open(os.path.join(top, path), encoding="utf-8") as file:
                    self.text[path] = file.read()
        self.spans = {path: list(spans_of(path, text)) for path, text in self.text.items()}
        self.words = {path: collections.Counter(word for a, b in self.spans[path] for word in NAMES.findall(text[a:b])) for path, text in self.text.items()}
        self.defined = collections.defaultdict(set)
        self.methods = set()
        for path, text in self.text.items():
            crate = crate_of(path)
            code = "\n".join(text[a:b] for a, b in self.spans[path])
            if path.endswith(".rt") and not crate.endswith("_tests"):
                for word in re.findall(r"\b(?:fn|struct|enum|trait|type|const|static|mod)\s+(\w+)", code):
                    self.defined[word].add(crate)
                for body in re.findall(r"\b(?:struct|enum)\s+\w+[^{;]*\{(.*?)\n\}", code, re.S):
                    for word in re.findall(r"^\s+(?:pub(?:\([^)]*\))?\s+)?(\w+)\s*[:,({]", body, re.M):
                        self.defined[word].add(crate)
            elif path.endswith(".antt") and "/specs/" in path and not crate.endswith("_tests"):
                for word in re.findall(r"^(?:abbrev |unfoldable |record |data )?(?:pub )?(?:abbrev |unfoldable |record |data )?(\w+)\b(?=[^\n]*[:])", code, re.M):
                    self.defined[word].add(crate)

    def named_files(self, word):
        """The .rt and .antt files that have a name, by crate."""
        found = collections.defaultdict(list)
        for path in self.text:
            if os.path.basename(path) in (f"{word}.antt", f"{word}.rt"):
                found[crate_of(path)].append(path)
        return found

    def strays(self, word, crate):
        """The files of other crates with a word that don't name this crate: those in which it surely means something else (no file of that
        crate has both), and those in which that isn't sure. A proof cites the calls of its function without naming their crate."""
        other, unsure = [], []
        for path in self.files_with(word):
            here = crate_of(path)
            if here in ("", crate) or path.endswith((".edit", ".md")) or crate in self.text[path]:
                continue
            if not any(crate in self.text[file] for file in self.files_with(word, here)):
                other.append(path)
            elif "/proofs/" not in path or not any(file.endswith(".rt") and crate in self.text[file] for file in self.files_with(word, here)):
                unsure.append(path)
        return other, unsure

    def files_with(self, word, crate=None):
        return [path for path, words in self.words.items() if words[word] and (crate is None or crate_of(path) == crate)]

def crate_of(path):
    parts = path.split("/")
    return parts[1] if parts[0] == "crates" and len(parts) > 1 else ""

def class_of(repository, crate, old, new, inside):
    """The class of a row, the files that would change, and why it is held back."""
    defined = repository.defined[old]
    files = repository.files_with(old, inside)
    if not defined or not files:
        return "gone", files, []
    if not inside:
        others = sorted(f"a file of {other}" for other in repository.named_files(old) if other not in (crate, f"{crate}_tests"))
        skipped, unsure = repository.strays(old, crate)
        if defined != {crate} or old in COMMON or others or unsure:
            return "shared", files, sorted(defined - {crate}) + others + [f"a word of {path}" for path in unsure] or ["a common word"]
        files = [path for path in files if path not in skipped]
    clash = [path for path in files if repository.words[path][new]] + sorted(f"defined in {other}" for other in repository.defined[new] if other in defined)
    return ("clash" if clash else "whole"), files, clash

def renamed(text, spans, old, new):
    out, last = [], 0
    for a, b in spans:
        out += [text[last:a], re.sub(rf"\b{re.escape(old)}\b", new, text[a:b])]
        last = b
    return "".join(out) + text[last:]

def compounds_of(repository, old):
    """The folders of proofs for an impl of a trait: the type's name and the trait's in one word, as `SureFilesFiles`."""
    known = set(repository.defined) | {"Drop", "Model", "Clone", "Iterator", "Write", "Read"}
    names = {part for path in repository.text for part in path.split("/")[3:-1] if "/proofs/" in path}
    return sorted(name for name in names if name != old and (
        (name.startswith(old) and name[len(old):] in known) or (name.endswith(old) and name[:-len(old)] in known)) and old[0].isupper())


def folders_of(top, crate, old):
    """The folders of proofs with a function's or type's name, lowest first."""
    found = {os.path.dirname(path) for path in git(top, "ls-files", f"crates/{crate}/proofs").split("\n")}
    every = {"/".join(path.split("/")[:end]) for path in found for end in range(4, path.count("/") + 2)}
    return sorted((path for path in every if os.path.basename(path) == old), key=len, reverse=True)

def main():
    arguments = argparse.ArgumentParser(description=__doc__, formatter_class=argparse.RawDescriptionHelpFormatter)
    arguments.add_argument("--top", default=".")
    arguments.add_argument("--apply", action="store_true")
    arguments.add_argument("--only", action="append")
    arguments.add_argument("--in", dest="inside")
    arguments.add_argument("--table")
    given = arguments.parse_args()
    if given.inside and not given.only:
        sys.exit("--in is for --only")
    if given.apply and git(given.top, "status", "--porcelain"):
        sys.exit("the clone isn't clean")
    repository = Repository(given.top)
    news = collections.Counter(row[3] for row in ROWS)
    table, done, wide = [], collections.Counter(), set()
    for crate, kind, old, new in ROWS:
        if given.only and old not in given.only:
            continue
        sort, files, why = class_of(repository, crate, old, new, given.inside)
        if news[new] > 1 and sort == "whole":
            sort, why = "clash", ["two rows have this new name"]
        places = sum(repository.words[path][old] for path in files)
        done[sort] += 1
        table.append((crate, kind, old, new, places, len(files), sort, why))
        shown = f" ({', '.join(why[:4])}{', ..' if len(why) > 4 else ''})" if why else ""
        print(f"{sort:7} {crate}: {old} -> {new}: {places} places in {len(files)} files{shown}")
        twins = compounds_of(repository, old) if sort == "whole" else []
        if twins:
            print(f"        with {', '.join(twins)}")
        for word, instead in [(old, new)] * (given.apply and sort == "whole") + [(twin, twin.replace(old, new)) for twin in twins if given.apply]:
            if word != old:
                files = repository.files_with(word)
            for path in files:
                text = renamed(repository.text[path], repository.spans[path], word, instead)
                if path.endswith(".rt"):
                    wide |= {f"{path}: {after.strip()[:60]}" for before, after in zip(repository.text[path].split("\n"), text.split("\n")) if len(after) > 120 >= len(before)}
                repository.text[path] = text
                repository.spans[path] = list(spans_of(path, text))
                repository.words[path][instead] += repository.words[path].pop(word)
                with open(os.path.join(given.top, path), "w", encoding="utf-8") as file:
                    file.write(text)
            named = repository.named_files(word)[crate]
            moves = [(path, os.path.join(os.path.dirname(path), instead + os.path.splitext(path)[1])) for path in named]
            moves += [(folder, os.path.join(os.path.dirname(folder), instead)) for crates in ([crate] if word == old else sorted({crate_of(path) for path in files})) for folder in folders_of(given.top, crates, word)]
            for folder, place in moves:
                git(given.top, "mv", folder, place)
                for path in [path for path in repository.text if path == folder or path.startswith(folder + "/")]:
                    for held in (repository.text, repository.spans, repository.words):
                        held[place + path[len(folder):]] = held.pop(path)
    print(", ".join(f"{number} {sort}" for sort, number in sorted(done.items())))
    if wide:
        print(f"{len(wide)} lines of .rt are wider than 120 columns now:\n" + "\n".join(sorted(wide)))
    if given.table:
        with open(given.table, "w", encoding="utf-8") as file:
            file.write(TABLE_HEAD)
            for wanted in ("whole", "clash", "shared", "gone"):
                rows = [row for row in table if row[6] == wanted]
                file.write(f"\n## {wanted}: {len(rows)} names, {sum(row[4] for row in rows)} places\n\n| Crate | What | Now | Better | Places | Files | Why |\n|---|---|---|---|---|---|---|\n")
                for crate, kind, old, new, places, files, _, why in rows:
                    file.write(f"| {crate} | {kind} | `{old}` | `{new}` | {places} | {files} | {', '.join(why[:3])}{', ..' if len(why) > 3 else ''} |\n")

TABLE_HEAD = """# public names that are to be renamed

Made by `rename.py --top CLONE --table names.md`. *Places* are whole words that the script would change: code and words between backticks in
.rt and .antt, any word in .edit, words between backticks in .md. `rename.py --apply` does the class *whole* in one commit. *Clash*: the new
name stands already in a file that would change, or is defined in the same crate: choose another. *Shared*: the old name has several meanings
or is a common word; `--only OLD --in CRATE` does it in one crate, after a look. *Gone*: no such definition today.
"""

if __name__ == "__main__":
    main()
