"""Configurations of the servers that davserve is measured beside, all of Debian's packages: `{folder}` is where they lie, with `files`, `uploads` and `locks` in it, and they listen on 127.0.0.1 at `{port}`."""

# One process for each connection: so many stand ready.
PREFORK = """
LoadModule mpm_prefork_module {modules}/mod_mpm_prefork.so
StartServers {connections}
MinSpareServers {connections}
MaxSpareServers {connections}
MaxRequestWorkers {connections}
"""

# One process with a thread for each of 500 connections, and more: where all threads are at work, Apache closes connections.
EVENT = """
LoadModule mpm_event_module {modules}/mod_mpm_event.so
StartServers 1
ServerLimit 1
ThreadLimit 600
ThreadsPerChild 600
MaxRequestWorkers 600
MinSpareThreads 600
MaxSpareThreads 1200
"""

APACHE = """
ServerRoot {folder}
ServerName localhost
PidFile {folder}/pid
Listen 127.0.0.1:{port}
ErrorLog {folder}/errors
LoadModule authz_core_module {modules}/mod_authz_core.so
LoadModule mime_module {modules}/mod_mime.so
LoadModule dav_module {modules}/mod_dav.so
LoadModule dav_fs_module {modules}/mod_dav_fs.so
MaxConnectionsPerChild 0
User {user}
KeepAlive On
MaxKeepAliveRequests 0
KeepAliveTimeout 300
TypesConfig /etc/mime.types
DocumentRoot {folder}/files
DavLockDB {folder}/locks/db
<Directory {folder}/files>
  Dav On
  Require all granted
</Directory>
"""

LIGHTTPD = """
server.document-root = "{folder}/files"
server.port = {port}
server.bind = "127.0.0.1"
server.username = "{user}"
server.errorlog = "{folder}/errors"
server.upload-dirs = ("{folder}/uploads")
server.modules = ("mod_webdav")
server.max-keep-alive-requests = 65535
server.max-keep-alive-idle = 300
server.max-connections = 1024
server.max-fds = 4096
webdav.activate = "enable"
webdav.is-readonly = "disable"
webdav.sqlite-db-name = "{folder}/locks/db"
"""

NGINX = """
load_module modules/ngx_http_dav_ext_module.so;
daemon off;
worker_processes 1;
user {user};
pid {folder}/pid;
error_log {folder}/errors;
events {{
    worker_connections 2048;
}}
http {{
    access_log off;
    sendfile on;
    client_body_temp_path {folder}/uploads;
    client_max_body_size 0;
    keepalive_requests 1000000000;
    keepalive_timeout 300;
    dav_ext_lock_zone zone=locks:10m;
    server {{
        listen 127.0.0.1:{port};
        root {folder}/files;
        location / {{
            dav_methods PUT DELETE MKCOL COPY MOVE;
            dav_ext_methods PROPFIND OPTIONS LOCK UNLOCK;
            dav_ext_lock zone=locks;
        }}
    }}
}}
"""
