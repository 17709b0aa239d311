// What the page docs/CONFORM.md checks messages against.
enum Size { SMALL = 1, LARGE = 2 }
union Payment { 1: string card, 2: i64 voucher }
struct Item { 1: required string name, 2: Size size, 3: i32 count }
struct Order {
  1: required i64 id, 2: list<Item> items, 3: Payment payment,
  4: map<string, Item> gifts
}
service Orders {
  void place(1: Order order),
  Order find(1: i64 id)
}
