/* An upstream for measurements by Apache Thrift's C++ library, framed, Compact.
 *
 *     apache_upstream KIND PORT [BYTES]
 *
 * KIND is `nonblocking`, a TNonblockingServer whose one thread serves all connections and handles the calls itself, or
 * `threaded`, a TThreadedServer with a thread for each connection. Either handles one call of a connection at a time and
 * answers the calls of add.thrift with the bytes that upstream.c answers: a string of BYTES bytes, or no field where BYTES
 * is 0. It ends when it is killed, or with status 1 at a fault. */
#include "EmptyAnswers.h"
#include "TextAnswers.h"

#include <thrift/protocol/TCompactProtocol.h>
#include <thrift/server/TNonblockingServer.h>
#include <thrift/server/TThreadedServer.h>
#include <thrift/transport/TBufferTransports.h>
#include <thrift/transport/TNonblockingServerSocket.h>
#include <thrift/transport/TServerSocket.h>
#include <thrift/transport/TTransportException.h>

#include <cstdint>
#include <cstdio>
#include <cstdlib>
#include <memory>
#include <string>
#include <vector>

using apache::thrift::GlobalOutput;
using apache::thrift::TProcessor;
using apache::thrift::protocol::TCompactProtocolFactory;
using apache::thrift::server::TNonblockingServer;
using apache::thrift::server::TServer;
using apache::thrift::server::TThreadedServer;
using apache::thrift::transport::TFramedTransportFactory;
using apache::thrift::transport::TNonblockingServerSocket;
using apache::thrift::transport::TServerSocket;
using apache::thrift::transport::TTransportException;

static const char ADDRESS[] = "127.0.0.1";

class EmptyHandler : public EmptyAnswersIf {
public:
    void add(int32_t, int64_t, const std::vector<int32_t> &) override {}
};

class TextHandler : public TextAnswersIf {
public:
    explicit TextHandler(size_t length) : text(length, 'x') {}

    void add(std::string &answer, int32_t, int64_t, const std::vector<int32_t> &) override { answer = text; }

private:
    const std::string text;
};

/* Two services, because a method of one has either a result or none. */
static std::shared_ptr<TProcessor> processor_for(size_t answer_bytes)
{
    if (answer_bytes == 0)
        return std::make_shared<EmptyAnswersProcessor>(std::make_shared<EmptyHandler>());
    return std::make_shared<TextAnswersProcessor>(std::make_shared<TextHandler>(answer_bytes));
}

static std::unique_ptr<TServer> nonblocking_server(const std::shared_ptr<TProcessor> &processor, int port)
{
    GlobalOutput.setOutputFunction([](const char *) {}); /* notes of the library's start: its faults are thrown */
    auto socket = std::make_shared<TNonblockingServerSocket>(ADDRESS, port);
    auto server = std::make_unique<TNonblockingServer>(processor, std::make_shared<TCompactProtocolFactory>(), socket);
    server->setNumIOThreads(1); /* and no thread manager: that thread handles the calls that it reads */
    return server;
}

/* The library prints by itself what ends the server or a connection, unless it throws it. */
static std::unique_ptr<TServer> threaded_server(const std::shared_ptr<TProcessor> &processor, int port)
{
    return std::make_unique<TThreadedServer>(processor, std::make_shared<TServerSocket>(ADDRESS, port),
        std::make_shared<TFramedTransportFactory>(), std::make_shared<TCompactProtocolFactory>());
}

int main(int count, char **words)
{
    if (count < 3)
        return 2;
    std::string kind = words[1];
    if (kind != "nonblocking" && kind != "threaded")
        return 2;
    auto processor = processor_for(count > 3 ? static_cast<size_t>(std::atol(words[3])) : 0);
    int port = std::atoi(words[2]);
    auto server = kind == "threaded" ? threaded_server(processor, port) : nonblocking_server(processor, port);
    try {
        server->serve();
    } catch (const TTransportException &fault) {
        std::fprintf(stderr, "apache_upstream: %s\n", fault.what());
    }
    return 1;
}
