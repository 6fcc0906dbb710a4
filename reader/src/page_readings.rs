//! The wrong readings of pages, which the list of wrong readings ends with.

macro_rules! with_pages {
    ($switches:ident! { $($before:tt)* }) => {
        $switches! {
            $($before)*
            PageLimitLess, "page-limit-less", "page: 256 requests are 29";
            PageLimitMore, "page-limit-more", "page: 257 requests accepted";
            Page29Never, "page-29-never", "page: any number of requests, without 29";
            PageCut, "page-cut", "page: of more than 256 requests the first 256 are answered";
            Page28First, "page-28-first", "page: 28 before 29";
            Page28Exact, "page-28-exact", "page: as many results as requests are 28";
            Page28OneLess, "page-28-one-less", "page: one result too few accepted";
            Page28Most, "page-28-most", "page: fewer than 256 results are 28, whatever is asked for";
            Page28Never, "page-28-never", "page: as many as results are lent, without 28";
            Page28Writes, "page-28-writes", "page: 28 writes as far as the results reach";
            Page29Writes, "page-29-writes", "page: 29 writes the first 256";
            PageRefusalWipes, "page-refusal-wipes", "page: 28 and 29 clear the results";
            PageTableFirst, "page-table-first", "page: no table is 18 before 29 and 28";
            PageTableRefuses, "page-table-refuses", "page: no table is 18 for all, and nothing is written";
            PageEmpty18, "page-empty-18", "page: no table is 18 though nothing is asked for";
            PageFrameRefuses, "page-frame-refuses", "page: 19 and 20 for all, and nothing is written";
            PageFrameFirst, "page-frame-first", "page: in a result 19 and 20 come before 21 and 22";
            PageRequestRefuses, "page-request-refuses", "page: a refused request refuses all, and nothing is written";
            PageNumberOfResult, "page-number-of-result", "page: the call's number is the first refused request's";
            PageStops, "page-stops", "page: the first refused request is the last answered";
            PageSkips, "page-skips", "page: a refused request has no result, the next one takes its place";
            PageLeaves, "page-leaves", "page: a refused request's result stays as it was";
            PageNumberAlone, "page-number-alone", "page: of a refused request's result only the number is written";
            PageLeftOver, "page-left-over", "page: a refused request's result has the last one's width, raw and value";
            PageShifted, "page-shifted", "page: results stand one place on";
            PageReversed, "page-reversed", "page: results go from the last request to the first";
            PageSorted, "page-sorted", "page: results go by parameter, then sample";
            PageAgain, "page-again", "page: a request asked for again has no result";
            PageSwapped, "page-swapped", "page: sample and parameter exchanged";
            PageFirstParameter, "page-first-parameter", "page: the first request's parameter holds for all";
            PageKindOne, "page-kind-1", "page: a result's kind is 1 where copies differ";
            PageRawValue, "page-raw-value", "page: a result's value is its raw value";
            PageValueLow, "page-value-low", "page: a result's value has its low 32 bits alone";
            PageWipes, "page-wipes", "page: results beyond the requests become 0";
            PageCountLent, "page-count-lent", "page: all lent results counted";
            PageCountGood, "page-count-good", "page: only requests that are not refused counted";
            PageCountAsked, "page-count-asked", "page: 28 and 29 count the requests";
            PageCountByte, "page-count-byte", "page: the count of 256 results is 0";
        }
    };
}
