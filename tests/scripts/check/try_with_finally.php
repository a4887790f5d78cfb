<?php
try { }
finally { }
