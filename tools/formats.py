"""The headers of CSV files, and the answers that refuse a request: for the tools, and for the checks."""

PAGES = "name,count,split"
REQUESTS = "op,user,page"
REPORT = "row,id,number,phase,answer,page,count"
USERS = "number,user"
NAMES = "name,page"
OPTIONS = "option,value"

# The answers that refuse a request, in the order of the summary.
REFUSALS = UNKNOWN_USER, OTHER_HOME, UNKNOWN_PAGE = "unknown-user", "other-home", "unknown-page"
