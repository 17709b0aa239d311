// The service of apache_client.py and apache_server.py.
service Notes {
  string join(1: list<string> lines, 2: string between),
  map<string, i32> count(1: list<string> lines),
  binary turn(1: binary bytes),
  oneway void forget(1: string line)
}
