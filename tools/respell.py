#!/usr/bin/env python3
"""Respells the project's own words of specs/ and proofs/ in snake case: `insertOf` becomes `insert_of`.

usage: tools/respell.py        at the top of the repository, once, after the toolchain's own script (docs/PORT.md)

It goes over .antt and .rt files, must-fail edits, and the pages and tools that name these words. Functions of
src/ are in snake case already; what stands between quotation marks stays.
"""

import glob
import re

# two lemmas would fall together with the definitions that they speak of
FIRST = {
    "crates/exchange/proofs/Counting.antt": {"has_room": "has_room-free"},
    "crates/corrections/proofs/AnyOrder.antt": {"some_alike": "some_alike-reordered"},
}

WORDS = """
accountOf addHeld addSale addSold addSums addTo addValue addedSale addedTo afterWeights alikeAmong alikeFrom
amountIn amountTests amountsFault answerAs answerFault areDigits areRows arrTo atSymbol basisFault basisIn
basisOf basisOver basisStep behindSlash bitsIn blankCost blankCosts blankEvents blankHoldings blankOrder
blankOrders blankPositions blankQuote blankQuotes blankRow blankTrade blankVendor blankWeight bookAfter
bookSideOf bookWaitingOf bookWidth bookedAs bookedBy bookedOne booksOf brokenFault brokenFor brokenOf
brokenTest brokenWith brokerCalls brokerFault brokerLogFault brokerOf brokerWith buildFault buildFor buildOf
builderTests byTests bytesIn bytesTo callTests cappedIn cappedNumber cappedQuote cappedRow cashAmount
cashAnswer cashFault cashFunds cashHere cashMoved cashOf ceilOf chargeStep checkBroker checkFault checkFor
checkLog checkTests checkTraded checkedBy checkedOn correctAnswer correctFault correctOn correctTests
correctedFor correctedOf costBasis costIn costNamed costOf costOrBlank costRows costStep costsHere costsOf
countIn counterAfter countsAfter creditOf dateIn dateText debitNumber debitOf debitedBy decimalIn deleteOf
depositDone depositOf depositTests digitOf dropFirst eachFinite eachFrom emptyTable endBy endedBy entriesKey
eventAt eventFor eventOf eventsOf exceedsCash exceedsHolding exchangeCalls executeOf expectingAs failFunds
failedIf failedIn failedOf failedUnless fateOf fetchOne fetchedIn fillsOf firstDrawn firstFrom firstWords
floorOf forceOf freeA freeS freeV freshBroker fundsWith goodRows hasA hasNumber hasRoom hasSlash hasV
heldAfter heldCount holdingOf holdingRows howMany ifSpent impactOf impactStep inBook inLots insertEvent
insertOf insertTests isBuy isLot isMarket isPrice isSell isSlash kindIn knowsAt lastDigits lastSale
latestAndWaiting ledgerAfter ledgerAnswer ledgerAnswers ledgerRun ledgerStep lenderTests lengthTest lentLog
lentTests lentTick lentV limitSell lineIn lineSays lineSymbol lineTests lineText lineWith linesAnswer
linesFault linesFor linesIn liquidateDone liquidateOf liquidateTests liquidatedBy liquidationOf
liquidationValue listFault listedFrom listedTo logDiffers logFault logOf logTest logWith loggedIn lotAt lotIn
lotOf lotOver lotShares lotTable lotUnder makeA makeV markFrom marketOrder meetsKind meetsRule mergeOf
mergedFrom mergedIf minusOne moneyOf moneyWith movedAs movedBy movedOn movingTests multipleIn mutTy namedOr
negatedOf negatedShares negativeOf newerOf ninetyNine noBasis noBooked noBroker noCosts noEvents noFunds
noImpact noNumber noOrders noQuote noSpan noSpare noSums noTrade noTrades noVendor noWeight numberFrom
numberLine ofPart ofParts ofSide ofTheSide onFirst onlyOf ontoOf openOf orderDraws orderFor orderOrBlank
orderTests ordersAfter ordersAt ordersFor ordersIn ordersOf pA pV partIn pastLent pendingAfter pendingAt
pendingIf pendingOf pendingRows placeOf plainCall planAfter planAs planBy planFor planIn planOn planTests
positionRows positiveOf priceIn priceOf pricedAt pricedOrder printedOf ptrTo putRow putSettled quoteIn quoteOf
quoteOrBlank quoteParts quoteRows quoteWith rA rV readCosts readCount readFault readFloat readImpact readKey
readOrders readQuotes readTests readVendors readWeights refusedBy refusedUpdate refusedWith removedOf
rescuedBy restingFrom restingIn restingOf restsOneLess revisionFrom revisionIn revisionOf roomFrom roomIn
roomOf roomReaders roomTests rowFor rowFrom rowIf rowNow rowOrders rowTests rowsAfter rowsDraw rowsDrew rowsIn
rowsRead rowsShown rowsTests saidAlone saidAmount saidAs saidBuilt saidCheck saidCorrect saidIf saidLog
saidNew saidOrder saidOrders saidQuantity saidRoom saidSide saidSymbol saidUpdate saidWalk saidWhole
saleBudget salesFor salesFrom salesIn salesOf sameBytes sameDate secondTick sellsFirst sellsFirstBy sendAllOf
sendEvent sendEvents sendList sendListBroker sendListEvents sendListFault sendListTests sendOf sendTests
sendTestsAt sendingAll sentAll sentBy sentOne settleOf settleOne settledAt sharesAt sharesFor shortTest shrTy
sideBy sideNamed sideSaid signedIn signedZero sinceFrom soldFor soldIn someAlike someIf soundFault standsAt
stopBuy supplierTests symbolFault symbolFrom symbolIn symbolReaders tableFault tableTests tableText
tableWritten takeOn takeTests takenBy takenIn takenOne takenOver takesActing takesAfter takesIn takesPlace
takesSelling takesShort testsOn textWritten thenRows tickDone tickFault tickForOf tickOf tickedBook totalValue
tradableIn tradeAt tradeCosts tradeCountOf tradeEnd tradeFor tradeImpact tradeImpactTotal tradeIn tradeOf
tradeOn tradesIn tradesOf turnoverFault turnoverSums typesAfter unlessDrawn unlessZero untilSlash updateBroker
updateEvents updateFault updateFaultOf updateFor updateLog updateRefused updateSent updateTests updateTotal
valueFrom valueHere valueIn valueSold vendorIn vendorOf vendorOrBlank vendorRowTests vendorTests verbAt verbIn
verbOf waitOn waitingOf waitingPlace waitingRow walkCount walkFault walkFor walkOrders walkedOf wantedIn
weighAnswer weighedBy weightIn weightOf weightOrBlank weightRows weightTests weightsDraw weightsIn weightsOf
whoFrom wholeIn wholePlan wholeRow wholeShares wholeWalk winnerStep withBroker withCash withDigit withFunds
withMoney withOrders withPending withRows withdrawDone withdrawOf withdrawTests wordFrom worthAt writeFault
writeTests writtenKey
""".split()

# words that the toolchain's script respells in .rt and .antt files, and leaves in pages and edits
LEFT = """
answerIn answerOf atMost closesAt endIn firstOf floatIn floatOf heldAt homesOf inTurn isByte isEmpty isFinite
isHeld isRow isSome isZero joinOf kindOf lentOf lineAt lineFor lineOf linesOf linesRead listOf listedAt
noOrder noRows orZero orderAt orderIn orderOf partOf placeIn placesBy planOf readOf readOn restOf roomFor
rowAt rowOf rowsAt rowsFrom rowsOf signedOf symbolOf tableOf textOf totalOf valueAt valueOf wholeOf withCost
wordAt wordsIn wordsOf
""".split()

OTHERS = {"getD-each": "get_or-each"}

PAGES = ["README.md", "CONTRIBUTING.md", "docs/*.md", "docs/requests/*.md", "tools/*.py"]
TEXTS = ["crates/*/src/**/*.rt", "crates/*/specs/**/*.antt", "crates/*/proofs/**/*.antt", "crates/*/must-fail/*.edit"]


def snake(word):
    return re.sub(r"[A-Z]+", lambda m: "_" + m.group(0).lower(), word)


def respelled(text, table):
    """The text with each word of the table replaced, outside quotation marks on one line."""
    if not table:
        return text
    longest = sorted(table, key=len, reverse=True)
    word = re.compile(r'"(?:[^"\\\n]|\\.)*"|(?<![\w\'-])(?:%s)(?![\w\'-])' % "|".join(map(re.escape, longest)))
    return word.sub(lambda m: table.get(m.group(0), m.group(0)), text)


def main():
    table = {w: snake(w) for w in WORDS + LEFT}
    table.update(OTHERS)
    for pattern in TEXTS + PAGES:
        for path in sorted(glob.glob(pattern, recursive=True)):
            if path == "tools/respell.py" or "/out/" in path:
                continue
            with open(path, encoding="utf-8", newline="") as f:
                old = f.read()
            new = respelled(respelled(old, FIRST.get(path, {})), table)
            if new != old:
                with open(path, "w", encoding="utf-8", newline="") as f:
                    f.write(new)


if __name__ == "__main__":
    main()
