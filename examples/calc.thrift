include "shared.thrift"
/* numbers */
typedef i32 MyInteger
typedef MyInteger Count
enum Operation { ADD = 1, SUBTRACT, MULTIPLY }
union Either { 1: Count n  2: string s }
struct Work { 1: Count num1 = 0, 2: Count num2, 3: Operation op,
              4: optional string comment, 5: Either extra }
exception InvalidOperation { 1: i32 whatOp, 2: string why }
service Calculator extends shared.SharedService {
  void ping(),
  i32 calculate(1: i32 logid, 2: Work w) throws (1: InvalidOperation ouch),
  oneway void zip()  // no answer
  i32 old(i32 a, i32 b)
}
