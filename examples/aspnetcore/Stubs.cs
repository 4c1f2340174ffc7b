// What CheckedFilter.cs takes of ASP.NET Core, which Debian has not, in a form that compiles and answers: for the test
// of the example, and to be left out of a service. The server beside it stands in for Kestrel.
using System.Collections.Generic;
using System.Linq;
using System.Text.Json.Nodes;
using System.Threading.Tasks;

namespace System.Text.Json.Nodes
{
    /// <summary>JSON as it was written.</summary>
    public sealed class JsonNode
    {
        private string text;

        public static JsonNode Parse(string json)
        {
            return new JsonNode { text = json };
        }

        public override string ToString()
        {
            return text;
        }
    }
}

namespace Microsoft.AspNetCore.Http
{
    public struct QueryString
    {
        public QueryString(string value)
        {
            Value = value;
        }

        public string Value { get; }
    }

    public sealed class HttpRequest
    {
        public QueryString QueryString { get; set; }
    }

    public sealed class HttpContext
    {
        public HttpRequest Request { get; } = new HttpRequest();

        public IDictionary<object, object> Items { get; } = new Dictionary<object, object>();
    }

    public sealed class EndpointFilterInvocationContext
    {
        public EndpointFilterInvocationContext(HttpContext context)
        {
            HttpContext = context;
        }

        public HttpContext HttpContext { get; }
    }

    public delegate ValueTask<object> EndpointFilterDelegate(EndpointFilterInvocationContext context);

    public interface IEndpointFilter
    {
        ValueTask<object> InvokeAsync(EndpointFilterInvocationContext context, EndpointFilterDelegate next);
    }

    public sealed class JsonResult
    {
        public object Value { get; set; }

        public int StatusCode { get; set; }
    }

    public static class Results
    {
        public static object Json(object value, int statusCode)
        {
            return new JsonResult { Value = value, StatusCode = statusCode };
        }
    }

    /// <summary>JSON of objects without a name, and strings.</summary>
    public static class Json
    {
        public static string Of(object value)
        {
            var text = value as string;
            if (value == null || value is JsonNode)
            {
                return value == null ? "null" : value.ToString();
            }
            if (text != null)
            {
                return "\"" + string.Concat(text.Select(Escaped)) + "\"";
            }
            var members = value.GetType().GetProperties();
            return "{" + string.Join(",", members.Select(it => Of(it.Name) + ":" + Of(it.GetValue(value)))) + "}";
        }

        private static string Escaped(char it)
        {
            return it < ' ' || it == '"' || it == '\\' ? "\\u" + ((int)it).ToString("x4") : it.ToString();
        }
    }
}
