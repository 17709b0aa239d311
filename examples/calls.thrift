// The methods of the ten calls in calls.binary.
service Calls {
  void ping(),
  i32 add(1: i32 first, 2: i32 second),
  string find(1: i64 account, 2: string words, 3: i16 shelf),
  void log(1: string line, 2: i32 level),
  void name(1: string name),
  i64 count(1: i8 small, 2: i16 middle, 3: i32 large, 4: i64 largest),
  void store(1: string key, 2: string value, 3: i64 until),
  void move(1: i16 from_shelf, 2: i16 to_shelf, 3: string label, 4: i8 urgency),
  void mark(1: i64 account, 2: i64 mark),
  void end(1: string first, 2: i8 tiny, 3: string second, 4: i16 short, 5: string third, 6: i32 whole, 7: string fourth, 8: i64 long)
}
