"""How gunicorn serves the page. start.sh sets what is in the environment."""
import multiprocessing
import os

from table.place import told

bind = os.environ.get("TABLE_BIND", "127.0.0.1:8080")
workers = int(os.environ.get("TABLE_WORKERS", "2"))
worker_class = "table.workers.Worker"
threads = 16
keepalive = 5
timeout = 600
graceful_timeout = 10
accesslog = None
loglevel = "warning"
limit_request_line = 8190
limit_request_fields = 50
wsgi_app = "table:create_app()"
is_told = multiprocessing.Value("b", 0)


def post_worker_init(worker):
    """Says where the page is, once the first worker answers."""
    with is_told.get_lock():
        if not is_told.value:
            is_told.value = 1
            print(told(bind), flush=True)
