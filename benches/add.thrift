// The calls that load.c sends, with either answer that an upstream gives.
service EmptyAnswers {
  void add(1: i32 first, 2: i64 second, 3: list<i32> others)
}
service TextAnswers {
  string add(1: i32 first, 2: i64 second, 3: list<i32> others)
}
