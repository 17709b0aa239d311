// The services of the sample messages that make_messages writes.
struct Order {
  1: i8 urgency, 2: i16 shelf, 3: i32 amount, 4: i64 account, 5: bool paid,
  6: string customer, 7: string street, 8: binary seal,
  9: list<i32> marks, 10: map<string, i64> prices
}
service Shop {
  Order place(1: Order order, 2: string note),
  Order find(1: i64 account, 2: string customer, 3: i16 shelf, 4: i8 urgency, 5: i32 amount,
             6: list<string> words, 7: map<i32, string> notes),
  oneway void log(1: string line, 2: i32 level)
}
