using System;
using System.IO;
using System.Net;
using System.Net.Sockets;
using System.Text;
using System.Threading.Tasks;
using Microsoft.AspNetCore.Http;
using Odfilter;

/// <summary>A service that checks each $filter, over the stubs and one socket: `Server.exe SCHEMA TYPE PORT`. It
/// answers a request by the query that reaches its endpoint, and by the paths that the filter reads.</summary>
internal static class Server
{
    private static void Main(string[] words)
    {
        var schema = Schema.Read(File.ReadAllBytes(words[0]));
        var filter = new CheckedFilter(schema.Type(words[1]));
        var listener = new TcpListener(IPAddress.Loopback, int.Parse(words[2]));
        listener.Start();
        Console.WriteLine("http://" + listener.LocalEndpoint);
        while (true)
        {
            using (var client = listener.AcceptTcpClient())
            {
                Answer(client.GetStream(), filter);
            }
        }
    }

    private static void Answer(Stream stream, CheckedFilter filter)
    {
        var reader = new StreamReader(stream, Encoding.GetEncoding("iso-8859-1"));
        var target = reader.ReadLine().Split(' ')[1];
        while (reader.ReadLine() != "")
        {
        }
        var context = new HttpContext();
        var mark = target.IndexOf('?');
        context.Request.QueryString = new QueryString(mark < 0 ? "" : target.Substring(mark));
        var answer = filter.InvokeAsync(new EndpointFilterInvocationContext(context), Endpoint).Result;
        var refused = answer as JsonResult;
        var body = Encoding.UTF8.GetBytes(refused == null ? (string)answer : Json.Of(refused.Value));
        var status = refused == null ? "200 OK" : refused.StatusCode + " refused";
        var kind = refused == null ? "text/plain" : "application/json";
        var head = "HTTP/1.1 " + status + "\r\nContent-Type: " + kind;
        head += "\r\nContent-Length: " + body.Length + "\r\n\r\n";
        stream.Write(Encoding.ASCII.GetBytes(head), 0, head.Length);
        stream.Write(body, 0, body.Length);
    }

    private static ValueTask<object> Endpoint(EndpointFilterInvocationContext context)
    {
        object filter;
        context.HttpContext.Items.TryGetValue(CheckedFilter.FilterItem, out filter);
        var paths = filter == null ? "" : string.Join(" ", ((Filter)filter).PropertyPaths);
        var query = (context.HttpContext.Request.QueryString.Value ?? "").TrimStart('?');
        return new ValueTask<object>(query + "\n" + paths + "\n");
    }
}
