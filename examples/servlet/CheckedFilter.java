import jakarta.servlet.FilterChain;
import jakarta.servlet.ServletException;
import jakarta.servlet.http.HttpFilter;
import jakarta.servlet.http.HttpServletRequest;
import jakarta.servlet.http.HttpServletRequestWrapper;
import jakarta.servlet.http.HttpServletResponse;
import java.io.IOException;
import java.net.URLEncoder;
import java.nio.charset.StandardCharsets;
import java.util.Objects;
import java.util.Optional;
import org.odfilter.EntityType;
import org.odfilter.Filter;
import org.odfilter.FilterRefusedException;
import org.odfilter.QueryRefusedException;

/**
 * A Servlet filter. It passes on requests whose $filter is accepted and has at most so many nodes, with its canonical
 * text in the query, and answers others by 400 and the standard's error body. A servlet has the filter as the attribute
 * FILTER, until it has answered. It takes that or getQueryString: getParameter has the client's own text, and a space
 * for each of its plus signs.
 */
final class CheckedFilter extends HttpFilter {
    static final String FILTER = "odata.filter";
    private static final long serialVersionUID = 1L;
    private final transient EntityType entities;
    private final long mostNodes;

    CheckedFilter(EntityType entities, long mostNodes) {
        this.entities = entities;
        this.mostNodes = mostNodes;
    }

    @Override
    protected void doFilter(HttpServletRequest request, HttpServletResponse response, FilterChain next)
            throws IOException, ServletException {
        String query = Objects.requireNonNullElse(request.getQueryString(), "");
        Optional<Filter> checked;
        try {
            checked = entities.checkUrl(query.getBytes(StandardCharsets.ISO_8859_1));
        } catch (FilterRefusedException | QueryRefusedException refused) {
            refuse(response, refused.code(), refused.getMessage(), refused.json());
            return;
        }
        try (Filter filter = checked.orElse(null)) {
            if (filter != null && filter.nodeCount() > mostNodes) {
                refuse(response, "TooComplex", "The filter has too many nodes.", "null");
                return;
            }
            request.setAttribute(FILTER, filter);
            next.doFilter(filter == null ? request : withCanonical(request, filter, query), response);
        }
    }

    private static HttpServletRequest withCanonical(HttpServletRequest request, Filter filter, String query) {
        String text = URLEncoder.encode(filter.canonical(), StandardCharsets.UTF_8).replace("+", "%20");
        String passed = query.substring(0, filter.value().start()) + text + query.substring(filter.value().stop());
        return new HttpServletRequestWrapper(request) {
            @Override
            public String getQueryString() {
                return passed;
            }
        };
    }

    private static void refuse(HttpServletResponse response, String code, String message, String inner)
            throws IOException {
        StringBuilder quoted = new StringBuilder();
        for (char it : message.toCharArray()) {
            quoted.append(it < ' ' || it == '"' || it == '\\' ? String.format("\\u%04x", (int) it) : it);
        }
        response.setStatus(HttpServletResponse.SC_BAD_REQUEST);
        response.setContentType("application/json");
        response.setCharacterEncoding("UTF-8");
        response.getWriter().write("{\"error\":{\"code\":\"" + code + "\",\"message\":\"" + quoted
                + "\",\"target\":\"$filter\",\"innererror\":" + inner + "}}");
    }
}
