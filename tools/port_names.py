#!/usr/bin/env python3
"""Brings the repository's own names to today's spelling: run once, at the top, after /opt/rattle/port/port.py.

- Definitions, lemmas, fields and variables in camel case get snake case: readText is read_text. Types and modules keep theirs.
- A lemma that would have a definition's name then gets _lem.
- specs/Contracts.antt is specs/Clauses.antt, since Rattle makes a module specs.contracts of its own.
- The crate base64 is base64_rules, since Rattle has a library base64.
Functions of src/, names for C, strings, inputs and outputs keep their names.
"""

import os
import re
import subprocess

NAMES = """
acceptanceOf addDecimal addHexadecimal addedTo allBelow allBytes allOf allPass allText allTheSame allZero andThen answerIn answerOf areSmall asFlags
asPair asRow asWritten askedFor atEnd atItsEnd atMost atMostOne atQuote atStart attributeComes attributesF attributesOf baseIn beforeNul beforeRows
beforeStar beginAs begunForm behindFirst behindRow behindRows behindThe betweenKinds binaryOf bitAs bitBytes bitLetter bitLetters bitOf bitText
bitWords bitsOf bodyOf bothShow boundedLen brokenWord bufferOf bufferWith byteWord bytesFrom bytesOf bytesTurned callOf cameOut canBeEmpty cellBytes
cellDiffers cellForm cellText cellThen cellsAllEleven cellsEnd cellsShow charForm charactersAsThemselves charactersOf closeAs codeOf columnOf
columnsFrom compareFace comparedAs comparedCall comparedFaced comparisonOf consText contentAs contentBytes contentForm contentShows convertFace
convertLong convertPiece countAs countBytes countFits countIn countPart countedCell countedStep cutCall cutNight cutNumber cutStream decimalNext
decimalOf decimalReading declareFace declaredNumbers decodeCall decodeFace decodedSize differFrom differingBits digitIn elementBytes elementOf
elementText elementsAllEleven elementsBytes elementsFrom elementsSize emptyAs emptyCall emptyIsNull encodeCall encodeFace endTag endedWith enteredAt
entryOf exactlyOne faultNumber feedFirst fetchFace fetchIndexed fetchRow fetchUnder fieldAs fieldBody fieldEnd fieldOf fieldRead fieldWith fieldsF
fieldsThen fillSize filledBytes firstBad firstBytes firstNext firstOf firstPart firstRow fixedLen flagAs flagBit flagFor flagsAs flagsIn flagsLeft
flagsOf followedBy formBytes formOf formSize foundAs fourNumber fourOf fourParts fourSum foursBytes foursOf foursTurned givenAs goesOn goneOn
halvesOf hasNoReturn hasPlace hasText haveRows heldCell heldForm heldNext heldRow hexadecimalNext hexadecimalReading highestFrom holdingOf inClass
inFront inOrder inRange inRoom inStep indexFace indexedAs integerAllEleven integerIn integerWord isBit isChar isCounted isDeclared isDigit isElement
isEmpty isFalse isFinal isGood isIndexed isItself isLetter isNameByte isNull isNullList isNullOfKind isOne isOutside isPad isPlain isQuote isScalar
isSet isSigned isText isTrue isUnknown isUsed isWhite itemAs joinFace joinedAnswer joinedCall joinedNumbers joinedOf joinedParts joinedWith judgedAs
kindOf kindRead lastFour leadingDigits lenBefore lenOf lenRead lengthOf lengthRead letterOf letterSum letterValue lettersOf lineEnd lineEnds lowHalf
markedAt marksOf measuredAs metAgain metOf middlePart moreDigits mostBytes mostCellBytes mostCount mostDeclarations mostElements mostFrameBytes
mostInput mostNumber mostRoom nameAs nameComes namedAs nextFrom nextWord nightBinary nightBinary2 nightCall nightColumns nightDeclared nightDecls
nightOf nightRows nightText noColumn noStep noSuchKind notEmpty notedAt nullAs nullBits nullElement nullForm nullOf nullOfKind nullOfScalar nullRead
nullValue numberBytes numberFor numberFrom numbersIn numbersOf ofDigits ofKind ofLowest ofPair ofPattern onceMore oneByte oneForm oneInteger oneMore
oneNull openingText orElse ownBytes pairOf pairsOf pairsTurned partNumbers partOf partsIn partsOf pieceFace pieceFaced placeOf placeUnder planOf
putBack putForm quartersOf quickNumber quickRun quotedOf readAllEleven readAttribute readBinary readBinary2 readCell readCells readCounted readEnd
readField readFlags readForm readInteger readRow readStart readText readValue readValues readingFrom readingOf referenceAs refusalOf refusedAs
refusedCall refusedIn restEnds restOf resultOf roomAnd roomBehind roomFits roomIn roomSize rowAllEleven rowAt rowBytes rowDiffers rowForm rowLength
rowLengths rowOf rowShows rowStart rowThen rowsBoth rowsDone rowsOf rowsShow rowsShown rowsWritten sameAnswer sameCell sameElements sameInteger
scratchLength secondRow sequenceF shapeAs shownAs shownIn showsAt signedReading singlesOf sizeAs sizeOf sizeOrRefusal sizeWith sizedInput skipWhite
someName spaceAt spanName spanValue spoiledNumber standsForNull startBytes startOf startsOf stepAsItself stepFor stepOf stepOutcome stepsOn stepsTo
stopAt stoppedAs streamShows tableAllEleven tableOf tagAs tagBegins tailOf talliedIn tallyOf textBytes textCell textElements threeBytes throughNul
toDigits truthAs truthByte truthLetter truthLetters truthNumber truthShown truthText truthWord twoBytes underColumns unsplitFrom untilQuote upTo
valueAt valueIn valueOf valueOrNone valuesAt valuesBehind valuesBody valuesOf wantOf wantsBits wantsBytes wantsFixed wantsInteger wantsTruth
wholeIndex wholeOf widthOf withAttribute withRest withSign withoutBytes wordOf wordsAllEleven writeBinary writeBinary2 writeCell writeCells writeEnd
writeRow writeStart writeText wroteThen zeroNext
""".split()

# a lemma in snake case, and the definition in camel case that gets its name, in the crates that see both
LEMMAS = {
    "decode_call": ("base64_rules", "grammar"),
    "held_next": ("row_writing",),
    "is_one": ("grammar",),
    "joined_numbers": ("part_promises",),
    "value_in": ("character_reading",),
    "wrote_then": ("table", "moving"),
}
# the file of each lemma, and who cites it from there
LEMMA_PATH = {
    "decode_call": "Rattle.base64_rules.proofs.Laws",
    "held_next": "Rattle.row_writing.proofs.HeldForm",
    "is_one": "Rattle.grammar.proofs.ShownRead",
    "joined_numbers": "Rattle.part_promises.proofs.Parts",
    "value_in": "Rattle.character_reading.proofs.references.Laws",
    "wrote_then": "Rattle.table.proofs.Wrote",
}
CRATE = ("base64", "base64_rules")


def snake(name):
    return re.sub(r"(?<=[a-z0-9])([A-Z])", lambda m: "_" + m.group(1).lower(), name)


WORD = re.compile(r"(?<![\w'])(" + "|".join(sorted(NAMES, key=len, reverse=True)) + r")(?![\w'])|datatype-unsignedByte")
CLAUSES = re.compile(r"(Rattle\.\w+\.specs)\.Contracts\b")
BASE64 = re.compile(r"\bRattle\.base64\.")
STRING = re.compile(r'"(?:[^"\\]|\\.)*"')


def renamed(text):
    return WORD.sub(lambda m: snake(m.group(0)), text)


def outside_strings(text):
    """A line of Rattle, renamed but for what stands in its strings."""
    out, at = [], 0
    for m in STRING.finditer(text):
        out += [renamed(text[at : m.start()]), m.group(0)]
        at = m.end()
    return "".join(out) + renamed(text[at:])


def turned(path, text):
    lemmas = {}
    if path.endswith(".antt"):
        module = "Rattle." + path.split("crates/")[1][: -len(".antt")].replace("/", ".")
        module = BASE64.sub("Rattle.base64_rules.", module)
        for lemma, where in LEMMA_PATH.items():
            used = re.search(r"use " + re.escape(where) + r"\.\{[^}]*\b" + lemma + r"\b", BASE64.sub("Rattle.base64_rules.", text))
            if module == where or used:
                lemmas[lemma] = lemma + "_lem"
        for lemma, new in lemmas.items():
            text = re.sub(r"(?<![\w'.-])" + lemma + r"(?![\w'-])", new, text)
    if path.endswith(".rt"):
        text = "\n".join(l if l.lstrip().startswith("//!") else outside_strings(l) if not l.lstrip().startswith("//") else renamed(l) for l in text.split("\n"))
    else:
        text = renamed(text)
    text = CLAUSES.sub(r"\1.Clauses", text)
    text = BASE64.sub("Rattle.base64_rules.", text)
    if path.endswith(".edit"):
        text = text.replace("file: specs/Contracts.antt", "file: specs/Clauses.antt")
    return text


def texts():
    for folder, dirs, files in os.walk("crates"):
        dirs[:] = sorted(d for d in dirs if d != "out")
        for f in sorted(files):
            if f.endswith((".rt", ".antt", ".edit")):
                yield os.path.join(folder, f)


def main():
    for path in list(texts()):
        with open(path, encoding="utf-8") as f:
            text = f.read()
        new = turned(path, text)
        if path.endswith("specs/Lib.antt"):
            new = re.sub(r"(?m)^pub mod Contracts$", "pub mod Clauses", new)
        if new != text:
            with open(path, "w", encoding="utf-8") as f:
                f.write(new)
    for path in list(texts()):
        if path.endswith("/specs/Contracts.antt"):
            subprocess.run(["git", "mv", path, path.replace("Contracts.antt", "Clauses.antt")], check=True)
    if os.path.isdir("crates/" + CRATE[0]):
        subprocess.run(["git", "mv", "crates/" + CRATE[0], "crates/" + CRATE[1]], check=True)
    with open("crates.txt", encoding="utf-8") as f:
        lines = f.read()
    with open("crates.txt", "w", encoding="utf-8") as f:
        f.write(re.sub(r"\b" + CRATE[0] + r"\b", CRATE[1], lines))


if __name__ == "__main__":
    main()
