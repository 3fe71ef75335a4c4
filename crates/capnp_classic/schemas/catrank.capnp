@0xd3b6c2f1a7840e5b;
# What a search found, before and after it is ranked.

struct SearchResultList {
  results @0 :List(SearchResult);
}

struct SearchResult {
  url @0 :Text;
  score @1 :Float64;
  snippet @2 :Text;
}
