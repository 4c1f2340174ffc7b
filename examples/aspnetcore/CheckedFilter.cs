using System;
using System.Text;
using System.Text.Json.Nodes;
using System.Threading.Tasks;
using Microsoft.AspNetCore.Http;
using Odfilter;

/// <summary>An endpoint filter for ASP.NET Core: app.MapGet("/Items", ..).AddEndpointFilter(new
/// CheckedFilter(entities)). It passes on requests whose $filter is accepted and has at most so many nodes, with its
/// canonical text in the query, and answers others by 400 and the standard's error body. An endpoint has the filter as
/// the item FilterItem, until it has answered. It takes that or the query: an argument that was bound before has the
/// client's own text, and a space for each of its plus signs.</summary>
public sealed class CheckedFilter : IEndpointFilter
{
    public const string FilterItem = "odata.filter";
    private readonly EntityType entities;
    private readonly ulong mostNodes;

    public CheckedFilter(EntityType entities, ulong mostNodes = 100)
    {
        this.entities = entities;
        this.mostNodes = mostNodes;
    }

    public async ValueTask<object> InvokeAsync(EndpointFilterInvocationContext context, EndpointFilterDelegate next)
    {
        var request = context.HttpContext.Request;
        var given = Encoding.UTF8.GetBytes((request.QueryString.Value ?? "").TrimStart('?'));
        Filter filter;
        try
        {
            filter = entities.CheckUrl(given);
        }
        catch (ODataException refused) when (refused is FilterRefusedException || refused is QueryRefusedException)
        {
            return Refused(refused.Code, refused.Message, JsonNode.Parse(refused.Json));
        }
        using (filter)
        {
            if (filter == null)
            {
                return await next(context);
            }
            if (filter.NodeCount > mostNodes)
            {
                return Refused("TooComplex", "The filter has too many nodes.", null);
            }
            var text = Uri.EscapeDataString(filter.Canonical);
            var before = Encoding.UTF8.GetString(given, 0, filter.Value.Start);
            var after = Encoding.UTF8.GetString(given, filter.Value.Stop, given.Length - filter.Value.Stop);
            request.QueryString = new QueryString("?" + before + text + after);
            context.HttpContext.Items[FilterItem] = filter;
            return await next(context);
        }
    }

    private static object Refused(string code, string message, JsonNode innererror)
    {
        return Results.Json(new { error = new { code, message, target = "$filter", innererror } }, statusCode: 400);
    }
}
