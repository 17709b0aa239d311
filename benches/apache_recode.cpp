// Recodes framed messages by Apache Thrift's C++ library alone: what `convert` does, as its users would write it.
//
//     g++ -O2 -o apache_recode apache_recode.cpp -lthrift
//     ./apache_recode binary compact < messages.binary > messages.compact
//
// A frame is read from standard input into memory, its fields are transferred one by one without a schema, as
// `skip` goes through them, and the message is written behind its length. The protocols are templates over
// TMemoryBuffer, so the library inlines what it can; TJSONProtocol is none. Each string is text.
#include <thrift/protocol/TBinaryProtocol.h>
#include <thrift/protocol/TCompactProtocol.h>
#include <thrift/protocol/TJSONProtocol.h>
#include <thrift/transport/TBufferTransports.h>

#include <arpa/inet.h>
#include <cstdio>
#include <cstring>
#include <memory>
#include <stdexcept>
#include <string>
#include <vector>

using apache::thrift::protocol::TBinaryProtocolT;
using apache::thrift::protocol::TCompactProtocolT;
using Json = apache::thrift::protocol::TJSONProtocol;
using apache::thrift::protocol::TMessageType;
using apache::thrift::protocol::TType;
using apache::thrift::transport::TMemoryBuffer;
namespace protocol = apache::thrift::protocol;

template <class In, class Out>
static void transfer(In& in, Out& out, TType kind);

template <class In, class Out>
static void transfer_fields(In& in, Out& out) {
  std::string name;
  in.readStructBegin(name);
  out.writeStructBegin("");
  for (;;) {
    TType kind;
    int16_t id;
    in.readFieldBegin(name, kind, id);
    if (kind == protocol::T_STOP) break;
    out.writeFieldBegin("", kind, id);
    transfer(in, out, kind);
    out.writeFieldEnd();
    in.readFieldEnd();
  }
  out.writeFieldStop();
  out.writeStructEnd();
  in.readStructEnd();
}

template <class In, class Out>
static void transfer_map(In& in, Out& out) {
  TType key, value;
  uint32_t size;
  in.readMapBegin(key, value, size);
  out.writeMapBegin(key, value, size);
  for (uint32_t i = 0; i < size; i++) {
    transfer(in, out, key);
    transfer(in, out, value);
  }
  out.writeMapEnd();
  in.readMapEnd();
}

template <class In, class Out>
static void transfer(In& in, Out& out, TType kind) {
  switch (kind) {
    case protocol::T_BOOL: { bool v; in.readBool(v); out.writeBool(v); break; }
    case protocol::T_BYTE: { int8_t v; in.readByte(v); out.writeByte(v); break; }
    case protocol::T_I16: { int16_t v; in.readI16(v); out.writeI16(v); break; }
    case protocol::T_I32: { int32_t v; in.readI32(v); out.writeI32(v); break; }
    case protocol::T_I64: { int64_t v; in.readI64(v); out.writeI64(v); break; }
    case protocol::T_DOUBLE: { double v; in.readDouble(v); out.writeDouble(v); break; }
    case protocol::T_STRING: { static std::string v; in.readString(v); out.writeString(v); break; }
    case protocol::T_STRUCT: transfer_fields(in, out); break;
    case protocol::T_MAP: transfer_map(in, out); break;
    case protocol::T_SET: {
      TType element; uint32_t size;
      in.readSetBegin(element, size);
      out.writeSetBegin(element, size);
      for (uint32_t i = 0; i < size; i++) transfer(in, out, element);
      out.writeSetEnd();
      in.readSetEnd();
      break;
    }
    case protocol::T_LIST: {
      TType element; uint32_t size;
      in.readListBegin(element, size);
      out.writeListBegin(element, size);
      for (uint32_t i = 0; i < size; i++) transfer(in, out, element);
      out.writeListEnd();
      in.readListEnd();
      break;
    }
    default: throw std::runtime_error("unknown kind");
  }
}

template <class In, class Out>
static int recode() {
  std::vector<uint8_t> input;
  size_t held = 0, place = 0;
  std::string gathered, name;
  auto from = std::make_shared<TMemoryBuffer>();
  auto to = std::make_shared<TMemoryBuffer>();
  In in(from);
  Out out(to);
  input.resize(1 << 20);
  for (;;) {
    while (held - place >= 4) {
      uint32_t length;
      memcpy(&length, &input[place], 4);
      length = ntohl(length);
      if (held - place < 4 + static_cast<size_t>(length)) break;
      from->resetBuffer(&input[place + 4], length, TMemoryBuffer::OBSERVE);
      to->resetBuffer();
      TMessageType kind;
      int32_t number;
      in.readMessageBegin(name, kind, number);
      out.writeMessageBegin(name, kind, number);
      transfer_fields(in, out);
      out.writeMessageEnd();
      in.readMessageEnd();
      uint8_t* bytes;
      uint32_t size;
      to->getBuffer(&bytes, &size);
      uint32_t big = htonl(size);
      gathered.append(reinterpret_cast<char*>(&big), 4);
      gathered.append(reinterpret_cast<char*>(bytes), size);
      place += 4 + length;
    }
    if (gathered.size() >= 1 << 18) {
      fwrite(gathered.data(), 1, gathered.size(), stdout);
      gathered.clear();
    }
    memmove(input.data(), &input[place], held - place);
    held -= place;
    place = 0;
    if (held == input.size()) input.resize(2 * input.size());
    size_t count = fread(&input[held], 1, input.size() - held, stdin);
    if (count == 0) break;
    held += count;
  }
  fwrite(gathered.data(), 1, gathered.size(), stdout);
  return held == 0 ? 0 : 3;
}

int main(int count, char** words) {
  using Binary = TBinaryProtocolT<TMemoryBuffer>;
  using Compact = TCompactProtocolT<TMemoryBuffer>;
  std::string from = count > 1 ? words[1] : "", to = count > 2 ? words[2] : "";
  if (from == "binary" && to == "binary") return recode<Binary, Binary>();
  if (from == "binary" && to == "compact") return recode<Binary, Compact>();
  if (from == "compact" && to == "binary") return recode<Compact, Binary>();
  if (from == "compact" && to == "compact") return recode<Compact, Compact>();
  if (from == "binary" && to == "json") return recode<Binary, Json>();
  if (from == "json" && to == "binary") return recode<Json, Binary>();
  fprintf(stderr, "usage: apache_recode binary|compact binary|compact, or binary json, or json binary\n");
  return 2;
}
