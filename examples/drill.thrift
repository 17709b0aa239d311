struct Item { 1: i64 id, 2: string name, 3: binary raw,
              4: list<i32> marks, 5: map<string,bool> flags }
service Drill { void put(1: list<Item> items) }
