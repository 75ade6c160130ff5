# What examples/c/hour.c does, from R: tests the book of a folder against its grid, monthly, and settles
# its hour. Rscript hour.R SHIM.so, in a folder with grid.bin, book.bin and prices.bin.
given <- commandArgs(trailingOnly = TRUE)
if (length(given) != 1) {
  write("usage: Rscript hour.R SHIM.so, in a folder with grid.bin, book.bin and prices.bin", stderr())
  quit(status = 2)
}
dyn.load(given[1])
load_file <- function(name) if (file.exists(name)) readBin(name, "raw", file.size(name)) else raw(0)
grid <- load_file("grid.bin")
book <- load_file("book.bin")
prices <- load_file("prices.bin")
hour <- .C("crr_r_hour", grid, length(grid), book, length(book), prices, length(prices),
  cents = double(1000), figures = double(6), refusal = integer(1))
if (hour$refusal != 0) {
  sentence <- .C("crr_r_refusal", hour$refusal, text = strrep(" ", 128))$text
  write(sprintf("refused: %d, %s", hour$refusal, sentence), stderr())
  quit(status = 1)
}
figures <- hour$figures
if (figures[1] == 0) {
  cat("pass\n")
} else {
  cat(sprintf("fail: %.0f overloaded, constraint %.0f by %.0f\n", figures[1], figures[2], figures[3]))
}
cat(sprintf("sum %.0f, exact %.0f cents and %.0f parts\n", figures[4], figures[5], figures[6]))
