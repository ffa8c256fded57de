"""What the numbers of documents 01 and 02 mean, in words, those of quote lines apart, which no scenario draws."""

# Numbers that a sender, a cash mover, a supplier of tables, weights or vendor's rows, a builder or a lender draws.
MEANINGS = {
    1: "a symbol is above 255",
    2: "a value is not finite, or a bid or ask is not above zero",
    3: "a row's symbol is not above that of the row before it",
    4: "the broker is Failed",
    5: "the symbol has no latest quote",
    6: "a limit or stop order cannot be sent through the broker",
    7: "cash does not exceed the cost at the latest ask",
    8: "the holding is smaller than the sale",
    9: "the order has zero shares",
    10: "as many orders were taken as the log has rows",
    11: "1,024 orders rest or wait already",
    12: "the money could not be paid out",
    13: "the account's liquidation value is zero",
    14: "there are more than 16 costs",
    15: "a lent list is too short",
    16: "the broker and the log that was lent do not belong together, or no broker was built",
    17: "the lot is outside 1 to 1,000,000",
    18: "the shares of a weight, before rounding, are NaN or too many for the lot",
    21: "two of the vendor's rows are alike in symbol, date and revision",
    22: "there are more than 1,024 of the vendor's rows",
}
